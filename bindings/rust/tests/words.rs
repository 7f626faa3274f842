//! The words of items, as docs/WORDS.md has them, and what has no words.

use naga_check::*;
use std::num::NonZeroU32;

const NONE: u32 = u32::MAX;

/// The operands of the type that is added last to a module.
fn operands_of_type(ty: impl Into<Type>) -> Vec<u32> {
    let mut words = Words::new();
    words.add_type(ty);
    words.finish().expect("one type has words")[1..].to_vec()
}

/// The item of a global expression.
fn item_of(expression: &Expression) -> Vec<u32> {
    let mut words = Words::new();
    words.add_global_expression(expression);
    words.finish().expect("one expression has words")
}

fn nested(depth: usize) -> Vec<u32> {
    let mut body = Vec::new();
    for _ in 0..depth {
        body = vec![Statement::Block(body)];
    }
    let mut words = Words::new();
    let mut function = Function::new();
    function.body = body;
    words.add_function(&function);
    words.finish().unwrap_or_default()
}

/// The part of docs/WORDS.md under a heading, up to the next one.
fn section_of_the_page(heading: &str) -> &'static str {
    let page = include_str!("../../../docs/WORDS.md");
    let (_, section) = page.split_once(heading).expect("the page has the heading");
    section.split("\n#").next().unwrap_or_default()
}

/// A word as the page has it: a number, `NONE`, or the head of an item.
fn word_of_the_page(word: &str) -> u32 {
    if let Some((count, opcode)) = word.split_once(" << 8 \\| ") {
        return word_of_the_page(count) << 8 | word_of_the_page(opcode);
    }
    let word = word.trim();
    match word.strip_prefix("0x") {
        _ if word == "NONE" => NONE,
        Some(digits) => u32::from_str_radix(digits, 16).expect("digits follow"),
        None => word.parse().expect("a word is a number"),
    }
}

/// The words in the table under a heading.
fn words_of_the_page(heading: &str) -> Vec<u32> {
    let rows = section_of_the_page(heading).lines();
    let codes = rows.filter_map(|row| row.strip_prefix("| `")?.split('`').next());
    codes
        .flat_map(|code| code.split(','))
        .map(word_of_the_page)
        .collect()
}

#[test]
fn the_struct_of_the_page() {
    let mut words = Words::new();
    let number = words.add_type(TypeInner::Scalar(Scalar::U32));
    let vector = words.add_type(TypeInner::Vector {
        size: VectorSize::Quad,
        scalar: Scalar::F32,
    });
    let members = vec![StructMember::at(0, number), StructMember::at(16, vector)];
    words.add_type(TypeInner::Struct { members, span: 32 });
    words.require_resolved_overrides();
    let words = words.finish().expect("a struct has words");
    assert_eq!(words, words_of_the_page("### A struct\n"));
    assert_eq!(words.len(), 25);
    let bytes = words[..4].iter().flat_map(|word| word.to_le_bytes());
    let bytes: Vec<String> = bytes.map(|byte| format!("{byte:02x}")).collect();
    assert!(section_of_the_page("### A struct\n").contains(&format!("`{}`", bytes.join(" "))));
}

#[test]
fn the_header_of_the_page() {
    let words = Words::with_header().finish();
    let words = words.expect("no items have words");
    let section = section_of_the_page("## Header\n");
    let numbers = format!("`{}, {:#x}, {}`", words[0], words[1], words[2]);
    assert!(section.contains(&numbers));
    let bytes = words.iter().flat_map(|word| word.to_le_bytes());
    let bytes: Vec<String> = bytes.map(|byte| format!("{byte:02x}")).collect();
    assert!(section.contains(&format!("`{}`", bytes.join(" "))));
}

/// `fn limit(count: u32) -> u32 { if count > 4u { return 4u; } return count; }`
fn limit() -> Vec<u32> {
    let mut words = Words::new();
    let number = words.add_type(TypeInner::Scalar(Scalar::U32));
    let mut limit = Function::new().named("limit");
    limit.arguments = vec![FunctionArgument::new(number).named("count")];
    limit.result = Some(FunctionResult::new(number));
    let count = limit.add_expression(Expression::FunctionArgument(0));
    let four = limit.add_expression(Expression::Literal(Literal::U32(4)));
    let is_greater = limit.add_expression(Expression::Binary {
        op: BinaryOperator::Greater,
        left: count,
        right: four,
    });
    let value = Some(four);
    limit.body = vec![
        Statement::Emit(is_greater.index()..is_greater.index() + 1),
        Statement::If {
            condition: is_greater,
            accept: vec![Statement::Return { value }],
            reject: vec![],
        },
        Statement::Return { value: Some(count) },
    ];
    words.add_function(&limit);
    words.finish().expect("a function has words")
}

#[test]
fn the_function_of_the_page() {
    assert_eq!(limit(), words_of_the_page("### A function\n"));
    assert_eq!(limit().len(), 42);
}

#[test]
fn the_function_of_the_page_is_accepted() {
    let words = words_of_the_page("### A function\n");
    let stages =
        check_functions(&words, &Options::new()).expect("the page has a module that is accepted");
    assert_eq!(stages.functions.len(), 1);
}

#[test]
fn names_are_bytes_four_in_a_word() {
    let named = |name: &str| {
        let inner = TypeInner::Sampler { comparison: true };
        operands_of_type(Type::new(inner).named(name))
    };
    assert_eq!(named(""), [0, 1]);
    assert_eq!(named("abcd"), [4, 0x6463_6261, 1]);
    assert_eq!(named("é1234"), [6, 0x3231_A9C3, 0x0000_3433, 1]);
}

#[test]
fn equal_types_are_one() {
    let mut words = Words::new();
    let first = words.add_type(TypeInner::Scalar(Scalar::U32));
    let named = words.add_type(Type::new(TypeInner::Scalar(Scalar::U32)).named("u32"));
    assert_ne!(first, named);
    assert_eq!(words.add_type(TypeInner::Scalar(Scalar::U32)), first);
    assert_eq!(words.add_type(TypeInner::Scalar(Scalar::I32)).index(), 2);
    assert_eq!(
        check_words(&words.finish().unwrap(), &Options::new())
            .unwrap()
            .len(),
        3
    );
    // What a host writes that doesn't merge them.
    let twice = [[3 << 8 | 16, NONE, 1, 4]; 2].concat();
    assert_eq!(
        check_words(&twice, &Options::new()),
        Err(Error::Unreadable { at: 4 })
    );
}

#[test]
fn many_types_are_found_again() {
    let mut words = Words::new();
    let mut add_all = || {
        let types = (0..5000).map(|stride| TypeInner::Array {
            base: Handle::new(0),
            size: ArraySize::Dynamic,
            stride,
        });
        let added: Vec<u32> = types.map(|inner| words.add_type(inner).index()).collect();
        added
    };
    let expected: Vec<u32> = (0..5000).collect();
    assert_eq!(add_all(), expected);
    assert_eq!(add_all(), expected);
    assert_eq!(words.finish().unwrap().len(), 5000 * 6);
}

#[test]
fn parts_of_types() {
    let base = Handle::new(9);
    let scalar = Scalar::F32;
    let space = AddressSpace::Storage {
        access: StorageAccess::LOAD | StorageAccess::ATOMIC,
    };
    assert_eq!(
        operands_of_type(TypeInner::Pointer { base, space }),
        [NONE, 9, 4, 5]
    );
    let pointer = |size| TypeInner::ValuePointer {
        size,
        scalar,
        space,
    };
    assert_eq!(operands_of_type(pointer(None)), [NONE, 0, 2, 4, 4, 5]);
    assert_eq!(
        operands_of_type(pointer(Some(VectorSize::Tri))),
        [NONE, 3, 2, 4, 4, 5]
    );
    let array = |size| TypeInner::BindingArray { base, size };
    let four = NonZeroU32::new(4).unwrap();
    assert_eq!(
        operands_of_type(array(ArraySize::Constant(four))),
        [NONE, 9, 0, 4]
    );
    assert_eq!(
        operands_of_type(array(ArraySize::Pending(Handle::new(7)))),
        [NONE, 9, 1, 7]
    );
    assert_eq!(operands_of_type(array(ArraySize::Dynamic)), [NONE, 9, 2, 0]);
}

/// The location 5, with what is said besides.
fn location(
    interpolation: Option<Interpolation>,
    sampling: Option<Sampling>,
    blend_src: Option<u32>,
    per_primitive: bool,
) -> Option<Binding> {
    Some(Binding::Location {
        location: 5,
        interpolation,
        sampling,
        blend_src,
        per_primitive,
    })
}

#[test]
fn bindings() {
    let built_in = |value| Some(Binding::BuiltIn(value));
    let flat = Some(Interpolation::Flat);
    let perspective = false;
    for (binding, expected) in [
        (None, [0, 0, 0]),
        (built_in(BuiltIn::Position { invariant: false }), [1, 0, 0]),
        (built_in(BuiltIn::Position { invariant: true }), [1, 1, 0]),
        (built_in(BuiltIn::PointSize), [1, 8, 0]),
        (built_in(BuiltIn::Barycentric { perspective }), [1, 15, 0]),
        (built_in(BuiltIn::HitKind), [1, 50, 0]),
        (Some(Binding::location(5)), [2, 5, 0]),
        (location(None, None, Some(1), false), [3, 5, 1]),
        (location(flat, None, None, false), [0x302, 5, 0]),
        (
            location(None, Some(Sampling::Sample), None, false),
            [0x3_0002, 5, 0],
        ),
        (location(None, None, None, true), [0x100_0002, 5, 0]),
        (
            location(flat, Some(Sampling::Either), Some(0), true),
            [0x105_0303, 5, 0],
        ),
    ] {
        let mut member = StructMember::at(4, Handle::new(0));
        member.binding = binding;
        let members = vec![member];
        let words = operands_of_type(TypeInner::Struct { members, span: 8 });
        assert_eq!(words[5..], expected);
    }
}

#[test]
fn interpolations_and_samplings() {
    for (interpolation, number) in [
        (Interpolation::Perspective, 1),
        (Interpolation::Linear, 2),
        (Interpolation::Flat, 3),
        (Interpolation::PerVertex, 4),
    ] {
        assert_eq!(interpolation as u32, number);
    }
    for (sampling, number) in [
        (Sampling::Center, 1),
        (Sampling::Centroid, 2),
        (Sampling::Sample, 3),
        (Sampling::First, 4),
        (Sampling::Either, 5),
    ] {
        assert_eq!(sampling as u32, number);
    }
}

#[test]
fn types_with_other_bindings_are_others() {
    let mut words = Words::new();
    let ty = words.add_type(TypeInner::Scalar(Scalar::F32));
    let mut add = |binding: Option<Binding>| {
        let mut member = StructMember::at(0, ty);
        member.binding = binding;
        let members = vec![member];
        words
            .add_type(TypeInner::Struct { members, span: 4 })
            .index()
    };
    let bindings = [
        location(None, None, None, false),
        location(Some(Interpolation::Linear), None, None, false),
        location(None, Some(Sampling::Centroid), None, false),
        location(None, None, None, true),
    ];
    assert_eq!(bindings.map(&mut add), [1, 2, 3, 4]);
    assert_eq!(bindings.map(&mut add), [1, 2, 3, 4]);
}

#[test]
fn images_have_formats() {
    let access = StorageAccess::STORE;
    for (format, number) in [
        (StorageFormat::R8Unorm, 0),
        (StorageFormat::Rgba8Unorm, 17),
        (StorageFormat::Bgra8Unorm, 21),
        (StorageFormat::R64Uint, 25),
        (StorageFormat::Rgba32Float, 34),
        (StorageFormat::Rgba16Snorm, 40),
    ] {
        let image = TypeInner::Image {
            dim: ImageDimension::D2,
            arrayed: false,
            class: ImageClass::Storage { format, access },
        };
        assert_eq!(operands_of_type(image), [NONE, 1, 0, 2, number, 2]);
    }
}

#[test]
fn resources_have_bindings_and_decorations() {
    let variable = || GlobalVariable::new(AddressSpace::Uniform, Handle::new(6));
    let item = |variable: &GlobalVariable| {
        let mut words = Words::new();
        words.add_global_variable(variable);
        words.finish().expect("one variable has words")
    };
    assert_eq!(item(&variable()), [5 << 8 | 34, NONE, 3, 0, 6, NONE]);
    let bound = variable().with_binding(ResourceBinding::new(2, 7));
    let none = MemoryDecorations::default();
    let both = MemoryDecorations::COHERENT | MemoryDecorations::VOLATILE;
    for (variable, expected) in [
        (bound.clone(), [1, 2, 7, 0]),
        (bound.clone().with_memory_decorations(none), [1, 2, 7, 0]),
        (bound.with_memory_decorations(both), [1, 2, 7, 3]),
        (
            variable().with_memory_decorations(MemoryDecorations::COHERENT),
            [0, 0, 0, 1],
        ),
        (
            variable().with_memory_decorations(MemoryDecorations::VOLATILE),
            [0, 0, 0, 2],
        ),
        (
            variable().with_binding(ResourceBinding::new(0, 0)),
            [1, 0, 0, 0],
        ),
    ] {
        let first = [9 << 8 | 50, NONE, 3, 0, 6, NONE];
        assert_eq!(item(&variable), [first.as_slice(), &expected].concat());
    }
}

/// The items of an entry point without a name, after its first.
fn items_of(entry_point: &EntryPoint) -> Vec<u32> {
    let mut words = Words::new();
    words.add_entry_point(entry_point);
    words.finish().expect("an entry point has words")[2..].to_vec()
}

#[test]
fn entry_points_have_stages() {
    let entry_point = || EntryPoint::new("", Function::new());
    assert_eq!(items_of(&entry_point()), []);
    for (stage, number) in [
        (ShaderStage::Vertex, 1),
        (ShaderStage::Task, 2),
        (ShaderStage::Mesh, 3),
        (ShaderStage::Fragment, 4),
        (ShaderStage::Compute, 5),
        (ShaderStage::RayGeneration, 6),
        (ShaderStage::Miss, 7),
        (ShaderStage::AnyHit, 8),
        (ShaderStage::ClosestHit, 9),
    ] {
        let items = items_of(&entry_point().with_stage(stage));
        assert_eq!(items, [2 << 8 | 48, number, 0]);
    }
    let allow = |conservative| EarlyDepthTest::Allow { conservative };
    for (test, number) in [
        (EarlyDepthTest::Force, 1),
        (allow(ConservativeDepth::GreaterEqual), 2),
        (allow(ConservativeDepth::LessEqual), 3),
        (allow(ConservativeDepth::Unchanged), 4),
    ] {
        let items = items_of(&entry_point().with_early_depth_test(test));
        assert_eq!(items, [2 << 8 | 48, 0, number]);
    }
}

#[test]
fn entry_points_have_sizes_and_meshes() {
    let (variable, ty) = (Handle::new(1), Handle::new(2));
    let mesh = || MeshStageInfo::new(variable, ty, ty).with_max_vertices_override(Handle::new(4));
    let entry_point = |mesh| EntryPoint::new("", Function::new()).with_mesh_info(mesh);
    let sized = entry_point(mesh())
        .with_stage(ShaderStage::Mesh)
        .with_workgroup_size([8, 0, 1])
        .with_workgroup_size_overrides([None, Some(Handle::new(3)), None]);
    let expected = [
        vec![2 << 8 | 48, 3, 0],
        vec![3 << 8 | 49, 8, 0, 1],
        vec![3 << 8 | 45, NONE, 3, NONE],
        vec![5 << 8 | 47, 1, 2, 2, 4, NONE],
    ];
    assert_eq!(items_of(&sized), expected.concat());
    for (mesh, expected) in [
        (mesh().with_topology(MeshOutputTopology::Lines), [1, 0, 0]),
        (
            mesh().with_topology(MeshOutputTopology::Triangles),
            [2, 0, 0],
        ),
        (mesh().with_max_vertices(5), [0, 5, 0]),
        (mesh().with_max_primitives(6), [0, 0, 6]),
    ] {
        let first = [8 << 8 | 47, 1, 2, 2, 4, NONE];
        let items = items_of(&entry_point(mesh));
        assert_eq!(items, [first.as_slice(), &expected].concat());
    }
}

#[test]
fn what_may_be_left_out_can_be_set() {
    let (ty, init) = (Handle::new(5), Handle::new(6));
    let location = Binding::location(3);
    let mut words = Words::new();
    words.add_constant(&Constant::new(ty, init).named("c"));
    words.add_override(&Override::new(ty).named("o").with_id(9).with_init(init));
    let variable = GlobalVariable::new(AddressSpace::Private, ty);
    words.add_global_variable(&variable.named("g").with_init(init));
    let mut function = Function::new().named("f");
    function.arguments = vec![FunctionArgument::new(ty).named("a").with_binding(location)];
    let value = Binding::BuiltIn(BuiltIn::BaseVertex);
    function.result = Some(FunctionResult::new(ty).with_binding(value));
    function.add_local_variable(LocalVariable::new(ty).named("l").with_init(init));
    words.add_function(&function);
    let member = StructMember::at(8, ty).named("m").with_binding(location);
    words.add_type(Type::new(TypeInner::Struct {
        members: vec![member],
        span: 12,
    }));
    let expected = [
        vec![4 << 8 | 32, 1, 0x63, 5, 6],
        vec![5 << 8 | 33, 1, 0x6F, 5, 6, 9],
        vec![6 << 8 | 34, 1, 0x67, 1, 0, 5, 6],
        vec![2 << 8 | 35, 1, 0x66],
        vec![6 << 8 | 40, 1, 0x61, 5, 2, 3, 0],
        vec![4 << 8 | 41, 1, 0x6C, 5, 6],
        vec![4 << 8 | 42, 5, 1, 4, 0],
        vec![9 << 8 | 24, NONE, 12, 1, 0x6D, 5, 8, 2, 3, 0],
    ];
    assert_eq!(words.finish(), Ok(expected.concat()));
}

#[test]
fn literals_are_their_bits() {
    for (literal, expected) in [
        (Literal::F64(1f64.to_bits()), [0, 0, 0x3FF0_0000]),
        (Literal::F16(0x3C00), [2, 0x3C00, 0]),
        (Literal::I16(-2), [4, 0xFFFE, 0]),
        (Literal::I32(-1), [6, NONE, 0]),
        (Literal::I64(-1), [8, NONE, NONE]),
        (Literal::U64(1 << 32), [7, 0, 1]),
        (Literal::Bool(true), [9, 1, 0]),
        (Literal::AbstractInt(i64::MIN), [10, 0, 0x8000_0000]),
    ] {
        let item = item_of(&Expression::Literal(literal));
        assert_eq!(item, [[3 << 8 | 64].as_slice(), &expected].concat());
    }
}

#[test]
fn what_is_left_out_is_none() {
    let expr = Handle::new(3);
    let kind = ScalarKind::Uint;
    let convert = |convert| {
        item_of(&Expression::As {
            expr,
            kind,
            convert,
        })[1..]
            .to_vec()
    };
    assert_eq!(convert(None), [3, 1, NONE]);
    assert_eq!(convert(Some(255)), [3, 1, 255]);
    let query = |query| item_of(&Expression::ImageQuery { image: expr, query })[1..].to_vec();
    assert_eq!(query(ImageQuery::Size { level: None }), [3, 0, NONE]);
    assert_eq!(query(ImageQuery::NumSamples), [3, 3, 0]);
}

#[test]
fn functions_of_packed_numbers() {
    for (fun, number) in [
        (MathFunction::Unpack2x16float, 57),
        (MathFunction::Modf, 58),
        (MathFunction::Dot4U8Packed, 62),
        (MathFunction::Inverse, 64),
        (MathFunction::Pack4xU8Clamp, 72),
        (MathFunction::Unpack4xU8, 78),
    ] {
        let item = item_of(&Expression::Math {
            fun,
            arg: Handle::new(3),
            arg1: None,
            arg2: None,
            arg3: None,
        });
        assert_eq!(item, [5 << 8 | 85, number, 3, NONE, NONE, NONE]);
    }
}

#[test]
fn cooperative_loads_have_shapes() {
    let load = |shape| {
        item_of(&Expression::CooperativeLoad {
            shape,
            pointer: Handle::new(3),
            stride: Handle::new(4),
        })
    };
    assert_eq!(load(None), [2 << 8 | 96, 3, 4]);
    let (eight, sixteen) = (CooperativeSize::Eight, CooperativeSize::Sixteen);
    let shape = CooperativeShape::new(eight, sixteen, CooperativeRole::C);
    assert_eq!(load(Some(shape)), [5 << 8 | 96, 3, 4, 8, 16, 2]);
}

/// The items of a function without a name, of these statements.
fn items_of_body(body: Vec<Statement>) -> Vec<u32> {
    let mut words = Words::new();
    let mut function = Function::new();
    function.body = body;
    words.add_function(&function);
    words.finish().expect("a function has words")[2..].to_vec()
}

#[test]
fn cases_have_values() {
    let value = |value| SwitchCase::new(vec![]).with_value(value);
    let cases = vec![
        SwitchCase::new(vec![]),
        value(SwitchValue::I32(-2)).falling_through(),
        value(SwitchValue::U32(7)),
        value(SwitchValue::Default),
    ];
    let selector = Handle::new(0);
    let expected = [
        vec![1 << 8 | 196, 0],
        vec![1 << 8 | 197, 0],
        vec![3 << 8 | 197, 1, 1, NONE - 1],
        vec![3 << 8 | 197, 0, 2, 7],
        vec![3 << 8 | 197, 0, 0, 0],
        vec![200],
    ];
    assert_eq!(
        items_of_body(vec![Statement::Switch { selector, cases }]),
        expected.concat()
    );
}

#[test]
fn barriers_have_memory() {
    let all = Barrier::STORAGE | Barrier::WORK_GROUP | Barrier::SUB_GROUP | Barrier::TEXTURE;
    for (barrier, expected) in [
        (Barrier::WORK_GROUP, None),
        (Barrier::default(), Some(0)),
        (Barrier::STORAGE, Some(1)),
        (Barrier::STORAGE | Barrier::WORK_GROUP, Some(3)),
        (Barrier::SUB_GROUP, Some(4)),
        (Barrier::TEXTURE, Some(8)),
        (all, Some(15)),
    ] {
        let both = vec![
            Statement::ControlBarrier(barrier),
            Statement::MemoryBarrier(barrier),
        ];
        let expected = match expected {
            None => vec![206, 207],
            Some(word) => vec![1 << 8 | 206, word, 1 << 8 | 207, word],
        };
        assert_eq!(items_of_body(both), expected);
    }
}

#[test]
fn subgroups_scan() {
    for (collective_op, expected) in [
        (CollectiveOperation::Reduce, vec![3 << 8 | 218, 2, 3, 4]),
        (
            CollectiveOperation::InclusiveScan,
            vec![4 << 8 | 218, 2, 3, 4, 1],
        ),
        (
            CollectiveOperation::ExclusiveScan,
            vec![4 << 8 | 218, 2, 3, 4, 2],
        ),
    ] {
        let operation = Statement::SubgroupCollectiveOperation {
            op: SubgroupOperation::Add,
            collective_op,
            argument: Handle::new(3),
            result: Handle::new(4),
        };
        assert_eq!(items_of_body(vec![operation]), expected);
    }
}

#[test]
fn blocks_end_where_they_end() {
    let mut words = Words::new();
    let looped = Statement::Loop {
        body: vec![Statement::Break],
        continuing: Vec::new(),
        break_if: None,
    };
    let chosen = Statement::Switch {
        selector: Handle::new(0),
        cases: vec![SwitchCase::new(vec![looped]).falling_through()],
    };
    let mut function = Function::new();
    function.body = vec![chosen, Statement::Kill];
    words.add_function(&function);
    let heads = [
        vec![1 << 8 | 196, 0],
        vec![1 << 8 | 197, 1],
        vec![198, 202, 199],
    ];
    let ends = [vec![1 << 8 | 201, NONE], vec![200, 205]];
    let expected = [vec![1 << 8 | 35, NONE], heads.concat(), ends.concat()];
    assert_eq!(words.finish(), Ok(expected.concat()));
}

#[test]
fn blocks_may_be_127_deep() {
    let deepest = nested(127);
    assert!(check_functions(&deepest, &Options::new()).is_ok());
    let deeper = [&deepest[..2 + 127], &[193, 200], &deepest[2 + 127..]].concat();
    assert_eq!(
        check_words(&deeper, &Options::new()),
        Err(Error::Unreadable { at: 2 + 127 })
    );
    assert!(nested(128).is_empty(), "no words are deeper");
}

#[test]
fn items_may_be_too_long() {
    let mut words = Words::new();
    words.add_global_expression(&Expression::Compose {
        ty: Handle::new(0),
        components: vec![Handle::new(0); 0xFF_FFFF],
    });
    words.add_type(TypeInner::Scalar(Scalar::U32));
    assert_eq!(words.finish(), Err(BuildError::ItemTooLong));
}
