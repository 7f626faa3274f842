//! What the calls on variables, declarations of functions and entry points return.

use naga_check::*;
use std::error::Error as _;

/// What calls use for a null pointer.
const DEFAULT: Options = Options::new();

/// The texts of a refusal: which item, and the rules that it breaks, outermost first.
fn texts_of(refused: &Error) -> Vec<String> {
    let mut texts = Vec::new();
    let mut rule = refused.source();
    while let Some(error) = rule {
        texts.push(error.to_string());
        rule = error.source();
    }
    texts
}

/// A module of a u32 and what is added to it, and its words.
fn module_with(add: impl FnOnce(&mut Words, Handle<Type>)) -> Vec<u32> {
    let mut words = Words::new();
    let number = words.add_type(TypeInner::Scalar(Scalar::U32));
    add(&mut words, number);
    words.finish().expect("the module has words")
}

/// Why what words declare is refused.
fn refusal_of(words: &[u32]) -> Refusal {
    let direct = check_declarations(words, &DEFAULT).unwrap_err();
    let module = Module::new(words, &DEFAULT).expect("the module itself is accepted");
    assert_eq!(module.declarations(), Err(direct));
    let Error::Refused(refusal) = direct else {
        panic!("{direct:?}");
    };
    refusal
}

/// An entry point of a stage.
fn entry_point(stage: ShaderStage, function: Function) -> EntryPoint {
    let mut entry_point = EntryPoint::new("main", function);
    entry_point.stage = Some(stage);
    entry_point
}

/// A vertex shader that returns a position of a type.
fn vertex_shader(ty: Handle<Type>) -> EntryPoint {
    let mut result = FunctionResult::new(ty);
    result.binding = Some(Binding::BuiltIn(BuiltIn::Position { invariant: false }));
    let mut function = Function::new();
    function.result = Some(result);
    entry_point(ShaderStage::Vertex, function)
}

#[test]
fn the_empty_module_declares_nothing() {
    assert_eq!(check_declarations(&[], &DEFAULT), Ok(()));
}

#[test]
fn what_a_module_declares_is_accepted() {
    let words = module_with(|words, number| {
        let vector = words.add_type(TypeInner::Vector {
            size: VectorSize::Quad,
            scalar: Scalar::F32,
        });
        let mut variable = GlobalVariable::new(AddressSpace::Uniform, number);
        variable.binding = Some(ResourceBinding::new(0, 1));
        words.add_global_variable(&variable);
        let mut function = Function::new();
        function.arguments = vec![FunctionArgument::new(number)];
        function.add_local_variable(LocalVariable::new(vector));
        words.add_function(&function);
        words.add_entry_point(&vertex_shader(vector));
    });
    assert_eq!(check_declarations(&words, &DEFAULT), Ok(()));
    let module = Module::new(&words, &DEFAULT).expect("the module is accepted");
    // Each call validates anew.
    assert_eq!(module.declarations(), Ok(()));
    assert_eq!(module.declarations(), Ok(()));
}

#[test]
fn a_variable_is_refused() {
    let words = module_with(|words, number| {
        let mut variable = GlobalVariable::new(AddressSpace::Uniform, number);
        variable.binding = Some(ResourceBinding::new(0, 0));
        words.add_global_variable(&variable);
        words.add_global_variable(&GlobalVariable::new(AddressSpace::Uniform, number));
    });
    let variable = Handle::new(1);
    let error = GlobalVariableError::InvalidBinding;
    assert_eq!(
        refusal_of(&words),
        Refusal::GlobalVariable { variable, error }
    );
    // Nothing is asked for a binding without the flag.
    let unbound =
        ValidationFlags::from_bits(ValidationFlags::ALL.bits() & !ValidationFlags::BINDINGS.bits());
    assert_eq!(check_declarations(&words, &DEFAULT.flags(unbound)), Ok(()));
    // The other calls say nothing of variables.
    assert!(check_functions(&words, &DEFAULT).is_ok());
}

#[test]
fn a_layout_is_told_with_what_it_lacks() {
    let words = module_with(|words, number| {
        let vector = words.add_type(TypeInner::Vector {
            size: VectorSize::Quad,
            scalar: Scalar::F32,
        });
        let members = vec![StructMember::at(0, number), StructMember::at(4, vector)];
        let pair = words.add_type(TypeInner::Struct { members, span: 32 });
        let mut variable = GlobalVariable::new(AddressSpace::Uniform, pair);
        variable.binding = Some(ResourceBinding::new(0, 0));
        words.add_global_variable(&variable);
    });
    let source = AlignmentError::MemberOffset {
        index: 1,
        offset: 4,
        alignment: 16,
    };
    let error = GlobalVariableError::Alignment(BufferSpace::Uniform, Handle::new(2), source);
    let variable = Handle::new(0);
    let refusal = Refusal::GlobalVariable { variable, error };
    assert_eq!(refusal_of(&words), refusal);
    assert_eq!(
        texts_of(&Error::Refused(refusal)),
        [
            "Global variable [0] is invalid",
            "Alignment requirements for address space Uniform are not met by [2]",
            "The struct member[1] offset 4 is not a multiple of the required alignment 16",
        ]
    );
}

#[test]
fn flags_of_a_type_are_told() {
    let words = module_with(|words, _| {
        let flag = words.add_type(TypeInner::Scalar(Scalar::BOOL));
        let mut variable = GlobalVariable::new(
            AddressSpace::Storage {
                access: StorageAccess::LOAD,
            },
            flag,
        );
        variable.binding = Some(ResourceBinding::new(0, 0));
        words.add_global_variable(&variable);
    });
    let Refusal::GlobalVariable {
        error: GlobalVariableError::MissingTypeFlags { required, seen },
        ..
    } = refusal_of(&words)
    else {
        panic!("hosts have no bools");
    };
    let shareable = TypeFlags::HOST_SHAREABLE;
    assert!(required.contains(shareable) && !seen.contains(shareable));
}

#[test]
fn an_expression_is_refused_before_what_functions_declare() {
    let words = module_with(|words, number| {
        let mut argument = FunctionArgument::new(number);
        argument.binding = Some(Binding::location(0));
        let mut function = Function::new();
        function.arguments = vec![argument];
        words.add_function(&function);
        let left = function.add_expression(Expression::Literal(Literal::U32(1)));
        let right = function.add_expression(Expression::Literal(Literal::Bool(true)));
        let op = BinaryOperator::Add;
        function.add_expression(Expression::Binary { op, left, right });
        words.add_function(&function);
    });
    let refusal = refusal_of(&words);
    assert!(
        matches!(refusal, Refusal::Function { function, .. } if function == Handle::new(1)),
        "{refusal:?}"
    );
    let of_functions = check_functions(&words, &DEFAULT).unwrap_err();
    assert_eq!(of_functions.error, Error::Refused(refusal));
}

#[test]
fn what_a_function_declares_is_refused() {
    let words = module_with(|words, number| {
        words.add_function(&Function::new());
        let mut argument = FunctionArgument::new(number);
        argument.binding = Some(Binding::location(0));
        let mut function = Function::new();
        function.arguments = vec![FunctionArgument::new(number), argument];
        words.add_function(&function);
    });
    let function = Handle::new(1);
    let error = FunctionDeclarationError::PipelineInputRegularFunction { index: 1 };
    assert_eq!(
        refusal_of(&words),
        Refusal::Declarations { function, error }
    );
}

#[test]
fn an_entry_point_is_refused() {
    let words = module_with(|words, _| {
        words.add_entry_point(&entry_point(ShaderStage::Vertex, Function::new()));
    });
    let error = EntryPointError::MissingVertexOutputPosition;
    assert_eq!(refusal_of(&words), Refusal::Interface { index: 0, error });
    let words = module_with(|words, _| {
        words.add_entry_point(&EntryPoint::new("main", Function::new()));
    });
    let error = EntryPointError::StageNotCovered;
    assert_eq!(refusal_of(&words), Refusal::Interface { index: 0, error });
}

#[test]
fn an_input_is_told_with_its_argument() {
    let words = module_with(|words, number| {
        let mut argument = FunctionArgument::new(number);
        argument.binding = Some(Binding::BuiltIn(BuiltIn::VertexIndex));
        let mut function = Function::new();
        function.arguments = vec![argument];
        words.add_entry_point(&entry_point(ShaderStage::Fragment, function));
    });
    let cause = VaryingError::InvalidBuiltInStage(BuiltIn::VertexIndex);
    let error = EntryPointError::Argument(0, cause);
    let refusal = Refusal::Interface { index: 0, error };
    assert_eq!(refusal_of(&words), refusal);
    assert_eq!(
        texts_of(&Error::Refused(refusal)),
        [
            "Entry point [0] is invalid",
            "Argument 0 varying error: Built-in VertexIndex is not available at this stage",
        ]
    );
}

#[test]
fn a_local_variable_of_an_entry_point_is_told_with_its_type() {
    let words = module_with(|words, _| {
        let atomic = words.add_type(TypeInner::Atomic(Scalar::U32));
        let mut function = Function::new();
        function.add_local_variable(LocalVariable::new(atomic));
        words.add_entry_point(&entry_point(ShaderStage::Fragment, function));
    });
    let cause = FunctionDeclarationError::LocalVariable {
        handle: Handle::new(0),
        source: LocalVariableError::InvalidType(Handle::new(1)),
    };
    let error = EntryPointError::Function(cause);
    let refusal = Refusal::Interface { index: 0, error };
    assert_eq!(refusal_of(&words), refusal);
    assert_eq!(
        texts_of(&Error::Refused(refusal)),
        [
            "Entry point [0] is invalid",
            "Local variable [0] is invalid",
            "Local variable has a type [1] that can't be stored in a local variable",
        ]
    );
}

#[test]
fn a_module_is_refused_before_what_it_declares() {
    let words = module_with(|words, _| {
        let half = words.add_type(TypeInner::Scalar(Scalar::F16));
        words.add_global_variable(&GlobalVariable::new(AddressSpace::Uniform, half));
    });
    let refused = check_words(&words, &DEFAULT).unwrap_err();
    assert_eq!(check_declarations(&words, &DEFAULT), Err(refused));
}

#[test]
fn options_and_limits_are_kept() {
    assert_eq!(
        check_declarations(&[255], &DEFAULT),
        Err(Error::Unreadable { at: 0 })
    );
    let words = module_with(|_, _| ());
    assert_eq!(
        check_declarations(&words, &DEFAULT.most_items(0)),
        Err(Error::Limit)
    );
    let unknown = DEFAULT.flags(ValidationFlags::from_bits(64));
    assert_eq!(check_declarations(&words, &unknown), Err(Error::Options));
    let said = module_with(|words, _| words.set_flags(ValidationFlags::ALL));
    assert_eq!(check_declarations(&said, &DEFAULT), Err(Error::Settings));
    let narrow = DEFAULT.settings(Settings::Narrow);
    assert_eq!(check_declarations(&said, &narrow), Ok(()));
}
