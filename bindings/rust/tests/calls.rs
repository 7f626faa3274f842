//! What the calls return.

use naga_check::*;
use std::error::Error as _;
use std::num::NonZeroU32;

/// What calls use for a null pointer.
const DEFAULT: Options = Options::new();

/// Why numbers of 16 bits are refused where no capability allows them.
const NEEDS_F16: WidthError = WidthError::MissingCapability {
    name: Scalar::F16,
    flag: Capabilities::SHADER_FLOAT16,
};

/// A module with one type, and the handle of it.
fn module_of(inner: TypeInner) -> (Vec<u32>, Handle<Type>) {
    let mut words = Words::new();
    let ty = words.add_type(inner);
    (words.finish().expect("one type has words"), ty)
}

/// Structs of one number, each in the next.
fn nested_structs(count: u32) -> (Vec<u32>, Handle<Type>) {
    let mut words = Words::new();
    let mut ty = words.add_type(TypeInner::Scalar(Scalar::U32));
    for _ in 0..count {
        let members = vec![StructMember::at(0, ty)];
        ty = words.add_type(TypeInner::Struct { members, span: 4 });
    }
    (words.finish().expect("structs have words"), ty)
}

#[test]
fn the_version_is_that_of_the_header() {
    assert_eq!(sys::naga_check_abi_version(), sys::NAGA_CHECK_ABI_VERSION);
}

#[test]
fn the_empty_module_is_accepted() {
    assert_eq!(check_words(&[], &DEFAULT), Ok(vec![]));
    assert_eq!(
        check_functions(&[], &DEFAULT),
        Ok(FunctionStages::default())
    );
    assert!(leaves(&[], &DEFAULT, &[], 0).is_ok_and(|leaves| leaves.is_empty() && leaves.are_all()));
}

#[test]
fn words_that_can_t_be_read() {
    // The head of an item of more operands than it may have, as the header makes it.
    assert_eq!(
        check_words(&[u32::MAX, 3], &DEFAULT),
        Err(Error::Unreadable { at: 0 })
    );
    assert_eq!(
        check_words(&[3, 3], &DEFAULT),
        Err(Error::Unreadable { at: 1 })
    );
    assert_eq!(
        check_words(&[1 << 8 | 35, u32::MAX, 193], &DEFAULT),
        Err(Error::Unreadable { at: 3 })
    );
    assert_eq!(
        leaves(&[255], &DEFAULT, &[], 0).unwrap_err(),
        Error::Unreadable { at: 0 }
    );
    assert_eq!(
        slots(&[255], &DEFAULT, Handle::new(0), 0),
        Err(Error::Unreadable { at: 0 })
    );
}

#[test]
fn a_refusal_says_which_item_and_why() {
    let (words, ty) = module_of(TypeInner::Scalar(Scalar::F16));
    let error = TypeError::WidthError(NEEDS_F16);
    let refused = Error::Refused(Refusal::Type { ty, error });
    assert_eq!(check_words(&words, &DEFAULT), Err(refused));
    assert_eq!(leaves(&words, &DEFAULT, &[ty], 0).unwrap_err(), refused);
    assert_eq!(slots(&words, &DEFAULT, ty, 0), Err(refused));
    assert_eq!(
        check_functions(&words, &DEFAULT).unwrap_err(),
        FunctionsError::from(refused)
    );
    let refusal = refused.source().expect("a refusal has a source");
    assert_eq!(refusal.to_string(), "Type [0] is invalid");
    let rule = refusal.source().expect("a rule is broken");
    assert_eq!(
        rule.to_string(),
        "Using `f16` values requires the `naga::valid::Capabilities::SHADER_FLOAT16` flag"
    );
}

#[test]
fn a_type_that_is_not_there() {
    let (words, _) = module_of(TypeInner::Scalar(Scalar::U32));
    assert_eq!(
        leaves(&words, &DEFAULT, &[Handle::new(1)], 0).unwrap_err(),
        Error::NoType
    );
    assert_eq!(
        slots(&words, &DEFAULT, Handle::new(1), 0),
        Err(Error::NoType)
    );
}

#[test]
fn leaves_of_several_types() {
    let mut words = Words::new();
    let base = words.add_type(TypeInner::Scalar(Scalar::U32));
    let size = ArraySize::Dynamic;
    let list = words.add_type(TypeInner::Array {
        base,
        size,
        stride: 4,
    });
    let words = words.finish().unwrap();
    let found = leaves(&words, &DEFAULT, &[base, list], 300).unwrap();
    assert_eq!((found.len(), found.are_all()), (301, true));
    let last = found.iter().last().unwrap();
    assert_eq!(
        (last.first, last.size, last.query, last.path),
        (4 * 299, 4, 1, &[299][..])
    );
    let first = found.iter().next().unwrap();
    assert_eq!((first.query, first.path.len()), (0, 0));
}

#[test]
fn more_leaves_than_are_asked_for() {
    let mut words = Words::new();
    let base = words.add_type(TypeInner::Scalar(Scalar::U32));
    let size = ArraySize::Constant(NonZeroU32::new(1 << 28).unwrap());
    let list = words.add_type(TypeInner::Array {
        base,
        size,
        stride: 4,
    });
    let words = words.finish().unwrap();
    // All of them are more than a call comes to by default.
    assert_eq!(
        leaves(&words, &DEFAULT, &[list], 0).unwrap_err(),
        Error::Limit
    );
    for most in [0, 1, 64, 100] {
        let found = leaves_up_to(&words, &DEFAULT, &[list], 0, most).unwrap();
        assert_eq!((found.len(), found.are_all()), (most, false));
        assert!(found.iter().zip(0..).all(|(leaf, at)| leaf.path == [at]));
    }
}

#[test]
fn long_paths_have_room() {
    let (words, ty) = nested_structs(40);
    let found = leaves(&words, &DEFAULT, &[ty; 3], 0).unwrap();
    assert_eq!(found.len(), 3);
    assert!(found.iter().all(|leaf| leaf.path == [0; 40]));
}

#[test]
fn stages_of_functions_and_entry_points() {
    let mut function = Function::default();
    function.add_expression(Expression::Literal(Literal::U32(7)));
    let mut words = Words::new();
    words.add_function(&function);
    words.add_function(&function);
    let entry_point = EntryPoint::new("main", function);
    assert_eq!(words.add_entry_point(&entry_point), 0);
    let stages = check_functions(&words.finish().unwrap(), &DEFAULT).unwrap();
    assert_eq!((stages.functions.len(), stages.entry_points.len()), (2, 1));
    assert!(stages.entry_points[0].contains(ShaderStages::COMPUTE_LIKE));
}

#[test]
fn deep_structs_need_no_stack_of_the_caller() {
    let (words, ty) = nested_structs(20_000);
    let call = move || slots(&words, &DEFAULT, ty, 8);
    let thread = std::thread::Builder::new().stack_size(512 << 10);
    assert_eq!(thread.spawn(call).unwrap().join().unwrap(), Ok(0b100));
}

#[test]
fn reports_longer_than_their_texts_have_room() {
    let made = report(b"type scalar float 4\ntype vector 4 float 4\n").unwrap();
    assert_eq!(made.text, "T0 ff 4 4\nT1 ff 16 16\nok\n");
    let made = report(b"?").unwrap();
    assert_eq!(made.verdict, Verdict::Unreadable);
    assert_eq!(made.text, "line 1 not readable\n");
    let made = report(b"type scalar float 2").unwrap();
    assert_eq!(
        (made.verdict, &made.text[..]),
        (Verdict::Refused, "refused type T0 WidthError\n")
    );
}

#[test]
fn flags_show_their_names() {
    let flags = TypeFlags::DATA | TypeFlags::SIZED;
    assert_eq!(format!("{flags:?}"), "TypeFlags(DATA | SIZED)");
    assert_eq!(format!("{:?}", ShaderStages::EMPTY), "ShaderStages(0x0)");
    assert_eq!(
        format!("{:?}", ShaderStages::from_bits(0x201)),
        "ShaderStages(VERTEX | 0x200)"
    );
    assert_eq!(ValidationFlags::default().bits(), 63);
    assert_eq!(Capabilities::default().bits(), 36864);
    assert_eq!(Capabilities::ALL.bits(), 17_592_186_044_415);
}

/// A module that has this one type, and its words after those of settings.
fn words_with(set: impl FnOnce(&mut Words), inner: TypeInner) -> Vec<u32> {
    let mut words = Words::new();
    set(&mut words);
    words.add_type(inner);
    words.finish().expect("one type has words")
}

#[test]
fn a_text_is_validated_as_words_are() {
    let infos = check_text(b"type scalar uint 4\ntype vector 3 float 4\n", &DEFAULT).unwrap();
    assert_eq!((infos.len(), infos[1].size), (2, 12));
    let unreadable = Err(Error::Unreadable { at: 2 });
    assert_eq!(check_text(b"# a comment\n?", &DEFAULT), unreadable);
    let error = TypeError::WidthError(NEEDS_F16);
    let ty = Handle::new(0);
    let refused = Err(Error::Refused(Refusal::Type { ty, error }));
    assert_eq!(check_text(b"type scalar float 2", &DEFAULT), refused);
}

#[test]
fn settings_that_come_with_a_module_are_refused() {
    let number = TypeInner::Scalar(Scalar::U32);
    let said: [fn(&mut Words); 3] = [
        |words| words.set_flags(ValidationFlags::ALL),
        |words| words.set_capabilities(Capabilities::default()),
        |words| words.require_resolved_overrides(),
    ];
    for set in said {
        let words = words_with(set, number.clone());
        assert_eq!(check_words(&words, &DEFAULT), Err(Error::Settings));
        let narrow = DEFAULT.settings(Settings::Narrow);
        assert_eq!(check_words(&words, &narrow).map(|infos| infos.len()), Ok(1));
    }
    for text in ["flags 63\n", "caps 36864\n", "resolved\n"] {
        assert_eq!(check_text(text.as_bytes(), &DEFAULT), Err(Error::Settings));
    }
}

#[test]
fn settings_that_come_with_a_module_never_widen() {
    let f16 = TypeInner::Scalar(Scalar::F16);
    let error = TypeError::WidthError(NEEDS_F16);
    let ty = Handle::new(0);
    let refused = Err(Error::Refused(Refusal::Type { ty, error }));
    let narrow = DEFAULT.settings(Settings::Narrow);
    let all = words_with(
        |words| words.set_capabilities(Capabilities::ALL),
        f16.clone(),
    );
    assert_eq!(check_words(&all, &narrow), refused);
    assert!(check_words(&all, &narrow.capabilities(Capabilities::ALL)).is_ok());
    let none = words_with(|words| words.set_capabilities(Capabilities::EMPTY), f16);
    assert_eq!(
        check_words(&none, &narrow.capabilities(Capabilities::ALL)),
        refused
    );
}

#[test]
fn settings_that_come_with_a_module_validate_no_less() {
    // A constant of a f32 that is a u32.
    let wrong = |flags: Option<ValidationFlags>| {
        let mut words = Words::new();
        if let Some(flags) = flags {
            words.set_flags(flags);
        }
        let ty = words.add_type(TypeInner::Scalar(Scalar::F32));
        let init = words.add_global_expression(&Expression::Literal(Literal::U32(7)));
        words.add_constant(&Constant::new(ty, init));
        words.finish().unwrap()
    };
    let narrow = DEFAULT.settings(Settings::Narrow);
    let nothing = ValidationFlags::EMPTY;
    assert!(matches!(
        check_words(&wrong(None), &DEFAULT),
        Err(Error::Refused(_))
    ));
    assert!(matches!(
        check_words(&wrong(Some(nothing)), &narrow),
        Err(Error::Refused(_))
    ));
    assert!(check_words(&wrong(None), &DEFAULT.flags(nothing)).is_ok());
    let all = wrong(Some(ValidationFlags::ALL));
    assert!(matches!(
        check_words(&all, &narrow.flags(nothing)),
        Err(Error::Refused(_))
    ));
}

#[test]
fn overrides_have_to_have_values_if_either_says_so() {
    let uninitialised = |resolved: bool| {
        let mut words = Words::new();
        if resolved {
            words.require_resolved_overrides();
        }
        let ty = words.add_type(TypeInner::Scalar(Scalar::U32));
        words.add_override(&Override::new(ty));
        words.finish().unwrap()
    };
    let narrow = DEFAULT.settings(Settings::Narrow);
    assert!(check_words(&uninitialised(false), &DEFAULT).is_ok());
    assert!(check_words(&uninitialised(false), &DEFAULT.resolved(true)).is_err());
    assert!(check_words(&uninitialised(true), &narrow).is_err());
    assert!(check_words(&uninitialised(true), &narrow.resolved(false)).is_err());
}

#[test]
fn limits_are_kept() {
    let (words, ty) = nested_structs(3);
    let count = words.len() as u64;
    assert!(check_words(&words, &DEFAULT.most_words(count).most_items(4)).is_ok());
    let limit = Error::Limit;
    assert_eq!(
        check_words(&words, &DEFAULT.most_words(count - 1)),
        Err(limit)
    );
    assert_eq!(check_words(&words, &DEFAULT.most_items(3)), Err(limit));
    assert_eq!(
        check_functions(&words, &DEFAULT.most_items(3))
            .unwrap_err()
            .error,
        limit
    );
    assert_eq!(slots(&words, &DEFAULT.most_words(0), ty, 0), Err(limit));
    let found = leaves(&words, &DEFAULT.most_leaves(2), &[ty; 2], 0).unwrap();
    assert_eq!((found.len(), found.are_all()), (2, true));
    assert_eq!(
        leaves(&words, &DEFAULT.most_leaves(2), &[ty; 3], 0).unwrap_err(),
        limit
    );
    assert!(check_text(b"#12345\n", &DEFAULT.most_words(1).most_items(1)).is_ok());
    assert_eq!(check_text(b"#123456\n", &DEFAULT.most_words(1)), Err(limit));
    assert_eq!(check_text(b"\n\n", &DEFAULT.most_items(1)), Err(limit));
}

#[test]
fn flags_without_a_name_are_no_options() {
    let flags = ValidationFlags::from_bits(64);
    assert_eq!(check_words(&[], &DEFAULT.flags(flags)), Err(Error::Options));
    let capabilities = Capabilities::from_bits(1 << 63);
    assert_eq!(
        check_words(&[], &DEFAULT.capabilities(capabilities)),
        Err(Error::Options)
    );
}

#[test]
fn values_that_hosts_may_not_share_have_no_slots() {
    let (words, ty) = module_of(TypeInner::Scalar(Scalar::BOOL));
    assert_eq!(slots(&words, &DEFAULT, ty, 0), Err(Error::NotShareable));
}

/// What is broken in a module, by its texts: of the rule, and of the rules within it.
fn rules_of(words: Words) -> Vec<String> {
    let refused = check_functions(&words.finish().unwrap(), &DEFAULT).unwrap_err();
    let mut rules = Vec::new();
    let mut rule = refused.error.source();
    while let Some(error) = rule {
        rules.push(error.to_string());
        rule = error.source();
    }
    rules
}

#[test]
fn a_stride_is_told_with_what_was_expected() {
    let mut words = Words::new();
    let base = words.add_type(TypeInner::Vector {
        size: VectorSize::Tri,
        scalar: Scalar::F32,
    });
    let size = ArraySize::Constant(NonZeroU32::MIN);
    let stride = 8;
    words.add_type(TypeInner::Array { base, size, stride });
    let array = "Array stride 8 does not match the expected 12";
    assert_eq!(rules_of(words), ["Type [1] is invalid", array]);
}

#[test]
fn a_handle_is_told_with_its_kind() {
    let mut words = Words::new();
    let init = words.add_global_expression(&Expression::Literal(Literal::U32(1)));
    words.add_constant(&Constant::new(Handle::new(7), init));
    let handle = "Handle 7 of Type is either not present, or inaccessible yet";
    assert_eq!(
        rules_of(words),
        ["Handle or range [7] of Type is invalid", handle]
    );
}

#[test]
fn a_dependency_is_told_with_what_depends_on_it() {
    let mut words = Words::new();
    words.add_type(TypeInner::Pointer {
        base: Handle::new(1),
        space: AddressSpace::Private,
    });
    words.add_type(TypeInner::Scalar(Scalar::U32));
    let refused = check_words(&words.finish().unwrap(), &DEFAULT).unwrap_err();
    let error = HandleError::ForwardDependency {
        kind: ItemKind::Type,
        subject: 0,
        depends_on: 1,
    };
    let kind = ItemKind::Type;
    let index = 0;
    assert_eq!(
        refused,
        Error::Refused(Refusal::Handle { kind, index, error })
    );
}

#[test]
fn a_literal_is_told_with_its_width() {
    let mut words = Words::new();
    words.add_global_expression(&Expression::Literal(Literal::F64(0)));
    let width = "Using `f64` values requires the `naga::valid::Capabilities::FLOAT64` flag";
    assert_eq!(
        rules_of(words),
        ["Constant expression [0] is invalid", width]
    );
}

#[test]
fn an_operation_is_told_with_its_operands() {
    let mut words = Words::new();
    let mut function = Function::default();
    let left = function.add_expression(Expression::Literal(Literal::U32(1)));
    let right = function.add_expression(Expression::Literal(Literal::Bool(true)));
    let op = BinaryOperator::Add;
    function.add_expression(Expression::Binary { op, left, right });
    words.add_function(&function);
    let operands = "Operation Add can't work with [0] and [1]";
    assert_eq!(
        rules_of(words),
        ["Expression [2] of function [0] is invalid", operands]
    );
}

/// The text of the rule that the last of some types breaks.
fn broken_rule(types: &[TypeInner]) -> String {
    let mut words = Words::new();
    for ty in types {
        words.add_type(ty.clone());
    }
    rules_of(words).pop().expect("a rule is broken")
}

#[test]
fn rules_of_types_are_told_with_what_they_are_about() {
    let image = |dim, class| TypeInner::Image {
        dim,
        arrayed: true,
        class,
    };
    let sampled = ImageClass::Sampled {
        kind: ScalarKind::Float,
        multi: false,
    };
    assert_eq!(
        broken_rule(&[image(ImageDimension::D3, sampled)]),
        "Arrayed images of dimensionality D3 and class Sampled { kind: Float, multi: false } are not supported"
    );
    let depth = ImageClass::Depth { multi: false };
    assert_eq!(
        broken_rule(&[image(ImageDimension::D3, depth)]),
        "Arrayed images of dimensionality D3 and class Depth { multi: false } are not supported"
    );
    let number = TypeInner::Scalar(Scalar::U32);
    let unsized_array = TypeInner::Array {
        base: Handle::new(0),
        size: ArraySize::Dynamic,
        stride: 4,
    };
    let pointer = TypeInner::Pointer {
        base: Handle::new(1),
        space: AddressSpace::Private,
    };
    assert_eq!(
        broken_rule(&[number.clone(), unsized_array, pointer]),
        "Unsized types like [1] must be in the `Storage` address space, not `Private`"
    );
    let members = vec![
        StructMember::at(0, Handle::new(0)),
        StructMember::at(2, Handle::new(0)),
    ];
    assert_eq!(
        broken_rule(&[number, TypeInner::Struct { members, span: 8 }]),
        "Structure member[1] at 2 overlaps the previous member"
    );
    assert_eq!(
        broken_rule(&[TypeInner::RayQuery {
            vertex_return: false
        }]),
        "Capability Capabilities(RAY_QUERY) is required"
    );
    assert_eq!(
        broken_rule(&[TypeInner::Atomic(Scalar::BOOL)]),
        "The Bool scalar width 1 is not supported for an atomic"
    );
}

#[test]
fn an_open_module_says_what_the_calls_say() {
    let mut words = Words::new();
    let number = words.add_type(TypeInner::Scalar(Scalar::U32));
    let vector = words.add_type(TypeInner::Vector {
        size: VectorSize::Quad,
        scalar: Scalar::F32,
    });
    let members = vec![StructMember::at(0, number), StructMember::at(16, vector)];
    let pair = words.add_type(TypeInner::Struct { members, span: 32 });
    let mut function = Function::default();
    function.add_expression(Expression::Literal(Literal::U32(7)));
    words.add_function(&function);
    let words = words.finish().expect("the module has words");
    let module = Module::new(&words, &DEFAULT).expect("the module is accepted");
    assert_eq!(
        check_words(&words, &DEFAULT).as_deref(),
        Ok(module.type_infos())
    );
    assert_eq!(module.type_info(pair), module.type_infos().last());
    assert_eq!(module.type_info(Handle::new(3)), None);
    assert_eq!(module.leaves(pair, 0), leaves(&words, &DEFAULT, &[pair], 0));
    assert_eq!(module.slots(pair, 4), slots(&words, &DEFAULT, pair, 4));
    assert_eq!(module.functions(), check_functions(&words, &DEFAULT));
    // It stands on its own.
    drop(words);
    assert_eq!(
        module.leaves(pair, 0).map(|leaves| leaves.iter().len()),
        Ok(2)
    );
}

#[test]
fn an_open_module_has_the_errors_of_the_calls() {
    let (words, ty) = module_of(TypeInner::Scalar(Scalar::F16));
    let refused = check_words(&words, &DEFAULT).unwrap_err();
    assert_eq!(Module::new(&words, &DEFAULT).unwrap_err(), refused);
    assert_eq!(
        Module::new(&[255], &DEFAULT).unwrap_err(),
        Error::Unreadable { at: 0 }
    );
    let (words, ty) = (module_of(TypeInner::Scalar(Scalar::BOOL)).0, ty);
    let module = Module::new(&words, &DEFAULT.most_leaves(0)).expect("the module is accepted");
    assert_eq!(module.leaves(ty, 0), Err(Error::Limit));
    assert_eq!(module.leaves(Handle::new(1), 0), Err(Error::NoType));
    assert_eq!(module.slots(ty, 0), Err(Error::NotShareable));
    let deep = nested_structs(5000);
    let module = Module::new(&deep.0, &DEFAULT).expect("the module is accepted");
    assert_eq!(module.slots(deep.1, 0), Ok(1));
}
