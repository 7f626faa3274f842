//! Builds a module that has everything, the one of `examples/hostile/everything.txt`, and prints its words: each
//! variant of type, expression and statement, and items of each kind.

use naga_check::*;
use std::num::NonZeroU32;

const LOADED: StorageAccess = StorageAccess::LOAD.union(StorageAccess::STORE);

/// The types that the other items name.
struct Types {
    u32: Handle<Type>,
    f32: Handle<Type>,
    atomic: Handle<Type>,
    pair: Handle<Type>,
    array: Handle<Type>,
    numbers: Handle<Type>,
    images: [Handle<Type>; 5],
    samplers: [Handle<Type>; 2],
    scene: Handle<Type>,
    ray: Handle<Type>,
    matrices: [Handle<Type>; 3],
}

/// The first values, of which one counts the elements of arrays.
struct Values {
    zero: Handle<Expression>,
    four: Handle<Expression>,
    four_constant: Handle<Constant>,
    one: Handle<Override>,
    count: Handle<Override>,
}

/// The variables of the module.
struct Variables {
    shared: Handle<GlobalVariable>,
    private: Handle<GlobalVariable>,
    numbers: Handle<GlobalVariable>,
    images: [Handle<GlobalVariable>; 5],
    samplers: [Handle<GlobalVariable>; 2],
    scene: Handle<GlobalVariable>,
    payload: Handle<GlobalVariable>,
}

fn array_of(base: Handle<Type>, size: ArraySize) -> TypeInner {
    TypeInner::Array {
        base,
        size,
        stride: 4,
    }
}

fn four() -> ArraySize {
    ArraySize::Constant(NonZeroU32::new(4).expect("four is not zero"))
}

fn add_first_values(words: &mut Words) -> (Handle<Type>, Values) {
    let u32 = words.add_type(TypeInner::Scalar(Scalar::U32));
    let zero = words.add_global_expression(&Expression::ZeroValue(u32));
    let four = words.add_global_expression(&Expression::Literal(Literal::U32(4)));
    let four_constant = words.add_constant(&Constant::new(u32, four));
    let one = words.add_override(&Override::new(u32).with_id(7));
    let count = words.add_override(&Override::new(u32).with_init(four));
    let values = Values {
        zero,
        four,
        four_constant,
        one,
        count,
    };
    (u32, values)
}

fn add_numbers(words: &mut Words, scalar: Scalar) {
    words.add_type(TypeInner::Vector {
        size: VectorSize::Bi,
        scalar,
    });
    words.add_type(TypeInner::Matrix {
        columns: VectorSize::Bi,
        rows: VectorSize::Bi,
        scalar,
    });
}

fn add_images(words: &mut Words) -> [Handle<Type>; 5] {
    let kind = ScalarKind::Float;
    let format = StorageFormat::R8Unorm;
    let access = LOADED | StorageAccess::ATOMIC;
    [
        (false, ImageClass::Sampled { kind, multi: false }),
        (true, ImageClass::Sampled { kind, multi: false }),
        (false, ImageClass::Depth { multi: false }),
        (false, ImageClass::Sampled { kind, multi: true }),
        (true, ImageClass::Storage { format, access }),
    ]
    .map(|(arrayed, class)| {
        words.add_type(TypeInner::Image {
            dim: ImageDimension::D2,
            arrayed,
            class,
        })
    })
}

fn add_matrices(words: &mut Words) -> [Handle<Type>; 3] {
    [CooperativeRole::A, CooperativeRole::B, CooperativeRole::C].map(|role| {
        words.add_type(TypeInner::CooperativeMatrix {
            columns: CooperativeSize::Eight,
            rows: CooperativeSize::Eight,
            scalar: Scalar::F32,
            role,
        })
    })
}

fn add_pointers(words: &mut Words, f32: Handle<Type>) {
    let space = AddressSpace::Function;
    words.add_type(TypeInner::Pointer { base: f32, space });
    words.add_type(TypeInner::ValuePointer {
        size: Some(VectorSize::Bi),
        scalar: Scalar::F32,
        space,
    });
}

fn add_structs(words: &mut Words, u32: Handle<Type>, dynamic: Handle<Type>) -> [Handle<Type>; 2] {
    let members = vec![StructMember::at(0, u32), StructMember::at(4, u32)];
    let pair = words.add_type(Type::new(TypeInner::Struct { members, span: 8 }).named("Pair"));
    let members = vec![StructMember::at(0, u32), StructMember::at(4, dynamic)];
    [pair, words.add_type(TypeInner::Struct { members, span: 8 })]
}

fn add_types(words: &mut Words, u32: Handle<Type>, count: Handle<Override>) -> Types {
    words.add_type(TypeInner::Scalar(Scalar::I32));
    let f32 = words.add_type(TypeInner::Scalar(Scalar::F32));
    words.add_type(TypeInner::Scalar(Scalar::BOOL));
    add_numbers(words, Scalar::F32);
    let atomic = words.add_type(TypeInner::Atomic(Scalar::U32));
    add_pointers(words, f32);
    let array = words.add_type(array_of(u32, four()));
    let dynamic = words.add_type(array_of(u32, ArraySize::Dynamic));
    words.add_type(array_of(u32, ArraySize::Pending(count)));
    let [pair, numbers] = add_structs(words, u32, dynamic);
    let images = add_images(words);
    let samplers =
        [false, true].map(|comparison| words.add_type(TypeInner::Sampler { comparison }));
    for size in [four(), ArraySize::Pending(count)] {
        words.add_type(TypeInner::BindingArray {
            base: images[0],
            size,
        });
    }
    let vertex_return = true;
    let scene = words.add_type(TypeInner::AccelerationStructure { vertex_return });
    let ray = words.add_type(TypeInner::RayQuery { vertex_return });
    let matrices = add_matrices(words);
    Types {
        u32,
        f32,
        atomic,
        pair,
        array,
        numbers,
        images,
        samplers,
        scene,
        ray,
        matrices,
    }
}

/// Adds the global expressions that are not first, and returns one that overrides decide.
fn add_values(words: &mut Words, types: &Types, first: &Values) -> Handle<Expression> {
    let (zero, four) = (first.zero, first.four);
    words.add_global_expression(&Expression::Constant(first.four_constant));
    let pair = words.add_global_expression(&Expression::Compose {
        ty: types.pair,
        components: vec![four, zero],
    });
    let splat = |size, value| Expression::Splat { size, value };
    words.add_global_expression(&splat(VectorSize::Bi, four));
    let size = words.add_global_expression(&Expression::Override(first.one));
    let wide = words.add_global_expression(&splat(VectorSize::Quad, size));
    add_parts(words, wide, size);
    add_operations(words, size, zero, four);
    words.add_global_expression(&Expression::ArrayLength(wide));
    words.add_constant(&Constant::new(types.pair, pair));
    let late = words.add_override(&Override::new(types.u32).with_init(size));
    words.add_global_expression(&Expression::Override(late));
    size
}

fn add_parts(words: &mut Words, wide: Handle<Expression>, index: Handle<Expression>) {
    use SwizzleComponent::{W, X, Y, Z};
    words.add_global_expression(&Expression::Access { base: wide, index });
    words.add_global_expression(&Expression::AccessIndex {
        base: wide,
        index: 0,
    });
    words.add_global_expression(&Expression::Swizzle {
        size: VectorSize::Bi,
        vector: wide,
        pattern: [X, Y, Z, W],
    });
}

fn add_operations(
    words: &mut Words,
    size: Handle<Expression>,
    zero: Handle<Expression>,
    four: Handle<Expression>,
) {
    words.add_global_expression(&Expression::Unary {
        op: UnaryOperator::BitwiseNot,
        expr: size,
    });
    let condition = words.add_global_expression(&Expression::Binary {
        op: BinaryOperator::Equal,
        left: size,
        right: four,
    });
    words.add_global_expression(&Expression::Select {
        condition,
        accept: size,
        reject: four,
    });
    let argument = words.add_global_expression(&Expression::As {
        expr: size,
        kind: ScalarKind::Float,
        convert: Some(4),
    });
    words.add_global_expression(&Expression::Relational {
        fun: RelationalFunction::IsNan,
        argument,
    });
    words.add_global_expression(&Expression::Math {
        fun: MathFunction::InsertBits,
        arg: size,
        arg1: Some(four),
        arg2: Some(zero),
        arg3: Some(four),
    });
}

fn add_variables(words: &mut Words, types: &Types, four: Handle<Expression>) -> Variables {
    let mut add = |space, ty, init| {
        let mut variable = GlobalVariable::new(space, ty);
        variable.init = init;
        words.add_global_variable(&variable)
    };
    let access = LOADED;
    Variables {
        shared: add(AddressSpace::WorkGroup, types.atomic, None),
        private: add(AddressSpace::Private, types.u32, Some(four)),
        numbers: add(AddressSpace::Storage { access }, types.numbers, None),
        images: types.images.map(|ty| add(AddressSpace::Handle, ty, None)),
        samplers: types.samplers.map(|ty| add(AddressSpace::Handle, ty, None)),
        scene: add(AddressSpace::Handle, types.scene, None),
        payload: add(AddressSpace::TaskPayload, types.u32, None),
    }
}

/// A function of these arguments that returns a value.
fn function(arguments: &[Handle<Type>], result: Handle<Type>) -> Function {
    let mut function = Function::new();
    function.arguments = arguments
        .iter()
        .copied()
        .map(FunctionArgument::new)
        .collect();
    function.result = Some(FunctionResult::new(result));
    function
}

fn add_callee(words: &mut Words, u32: Handle<Type>) -> Handle<Function> {
    let mut callee = function(&[u32, u32], u32);
    let handed = callee.add_expression(Expression::FunctionArgument(0));
    callee.body = vec![Statement::Return {
        value: Some(handed),
    }];
    words.add_function(&callee)
}

// The expressions of the caller that its other expressions and its statements name, by their indices.
const NUMBER: Handle<Expression> = Handle::new(0);
const STEP: Handle<Expression> = Handle::new(1);
const SCALAR: Handle<Expression> = Handle::new(2);
const HOLDS: Handle<Expression> = Handle::new(3);
const BUILT: Handle<Expression> = Handle::new(7);
const AT: Handle<Expression> = Handle::new(8);
const COORDINATE: Handle<Expression> = Handle::new(9);
const PLACE: Handle<Expression> = Handle::new(16);
const RAY: Handle<Expression> = Handle::new(17);
const BUFFER: Handle<Expression> = Handle::new(19);
const LIST: Handle<Expression> = Handle::new(20);
const IMAGE: Handle<Expression> = Handle::new(23);
const LAYERS: Handle<Expression> = Handle::new(24);
const DARK: Handle<Expression> = Handle::new(25);
const MANY: Handle<Expression> = Handle::new(26);
const TEXELS: Handle<Expression> = Handle::new(27);
const WAY: Handle<Expression> = Handle::new(28);
const COMPARE: Handle<Expression> = Handle::new(29);
const SHARE: Handle<Expression> = Handle::new(30);
const HIT: Handle<Expression> = Handle::new(31);
const CARRIED: Handle<Expression> = Handle::new(32);
const CALLED: Handle<Expression> = Handle::new(47);
const EARLIER: Handle<Expression> = Handle::new(48);
const UNIFORM: Handle<Expression> = Handle::new(49);
const PROCEEDS: Handle<Expression> = Handle::new(50);
const VOTES: Handle<Expression> = Handle::new(53);
const GATHERED: Handle<Expression> = Handle::new(54);
const PRODUCT: Handle<Expression> = Handle::new(55);

fn plain_values(types: &Types, first: &Values) -> Vec<Expression> {
    use SwizzleComponent::{X, Y};
    let size = VectorSize::Bi;
    vec![
        Expression::Literal(Literal::U32(1)),
        Expression::Literal(Literal::I32(1)),
        Expression::Literal(Literal::F32(1f32.to_bits())),
        Expression::Literal(Literal::Bool(true)),
        Expression::Constant(first.four_constant),
        Expression::Override(first.one),
        Expression::ZeroValue(types.pair),
        Expression::Compose {
            ty: types.pair,
            components: vec![NUMBER, NUMBER],
        },
        Expression::Splat {
            size,
            value: SCALAR,
        },
        Expression::Splat { size, value: STEP },
        Expression::Swizzle {
            size,
            vector: AT,
            pattern: [X, Y, X, Y],
        },
        Expression::Access {
            base: AT,
            index: NUMBER,
        },
        Expression::AccessIndex {
            base: BUILT,
            index: 0,
        },
    ]
}

fn references(variables: &Variables) -> Vec<Expression> {
    let mut references: Vec<_> = (0..3).map(Expression::FunctionArgument).collect();
    references.extend([0, 1].map(|index| Expression::LocalVariable(Handle::new(index))));
    references.extend([
        Expression::Load { pointer: PLACE },
        Expression::GlobalVariable(variables.numbers),
        Expression::AccessIndex {
            base: BUFFER,
            index: 1,
        },
        Expression::Access {
            base: LIST,
            index: NUMBER,
        },
        Expression::ArrayLength(LIST),
    ]);
    references.extend(variables.images.map(Expression::GlobalVariable));
    references.extend(variables.samplers.map(Expression::GlobalVariable));
    let others = [variables.shared, variables.scene, variables.payload];
    references.extend(others.map(Expression::GlobalVariable));
    references
}

fn samples() -> Vec<Expression> {
    let levels = [
        SampleLevel::Exact(SCALAR),
        SampleLevel::Bias(SCALAR),
        SampleLevel::Gradient { x: AT, y: AT },
    ];
    let sampled = levels.map(|level| Expression::ImageSample {
        image: LAYERS,
        sampler: WAY,
        gather: None,
        coordinate: AT,
        array_index: Some(NUMBER),
        offset: Some(COORDINATE),
        level,
        depth_ref: None,
        clamp_to_edge: false,
    });
    let gathered = Expression::ImageSample {
        image: DARK,
        sampler: COMPARE,
        gather: Some(SwizzleComponent::X),
        coordinate: AT,
        array_index: None,
        offset: None,
        level: SampleLevel::Zero,
        depth_ref: Some(SCALAR),
        clamp_to_edge: false,
    };
    sampled.into_iter().chain([gathered]).collect()
}

fn texels() -> Vec<Expression> {
    let coordinate = COORDINATE;
    vec![
        Expression::ImageLoad {
            image: LAYERS,
            coordinate,
            array_index: Some(NUMBER),
            sample: None,
            level: Some(NUMBER),
        },
        Expression::ImageLoad {
            image: MANY,
            coordinate,
            array_index: None,
            sample: Some(NUMBER),
            level: None,
        },
        Expression::ImageQuery {
            image: IMAGE,
            query: ImageQuery::Size {
                level: Some(NUMBER),
            },
        },
    ]
}

fn operations() -> Vec<Expression> {
    vec![
        Expression::Unary {
            op: UnaryOperator::Negate,
            expr: STEP,
        },
        Expression::Binary {
            op: BinaryOperator::Add,
            left: NUMBER,
            right: NUMBER,
        },
        Expression::Select {
            condition: HOLDS,
            accept: NUMBER,
            reject: NUMBER,
        },
        Expression::Derivative { expr: SCALAR },
        Expression::Relational {
            fun: RelationalFunction::IsNan,
            argument: SCALAR,
        },
        Expression::Math {
            fun: MathFunction::InsertBits,
            arg: NUMBER,
            arg1: Some(NUMBER),
            arg2: Some(NUMBER),
            arg3: Some(NUMBER),
        },
        Expression::As {
            expr: NUMBER,
            kind: ScalarKind::Float,
            convert: Some(4),
        },
    ]
}

fn results(types: &Types, callee: Handle<Function>) -> Vec<Expression> {
    let ty = types.u32;
    vec![
        Expression::CallResult(callee),
        Expression::AtomicResult {
            ty,
            comparison: false,
        },
        Expression::WorkGroupUniformLoadResult { ty },
        Expression::RayQueryProceedResult,
        Expression::RayQueryGetIntersection {
            query: RAY,
            committed: true,
        },
        Expression::RayQueryVertexPositions {
            query: RAY,
            committed: true,
        },
        Expression::SubgroupBallotResult,
        Expression::SubgroupOperationResult { ty },
        Expression::CooperativeMultiplyAdd {
            a: Handle::new(13),
            b: Handle::new(14),
            c: Handle::new(15),
        },
    ]
}

/// Blocks of each kind within one another.
fn blocks() -> Statement {
    let looped = Statement::Loop {
        body: vec![Statement::Break],
        continuing: vec![Statement::Continue],
        break_if: Some(HOLDS),
    };
    let chosen = Statement::Switch {
        selector: NUMBER,
        cases: vec![SwitchCase::new(vec![looped])],
    };
    Statement::Block(vec![Statement::If {
        condition: HOLDS,
        accept: vec![chosen],
        reject: vec![Statement::Kill],
    }])
}

fn writes() -> Vec<Statement> {
    let (image, coordinate, array_index) = (TEXELS, COORDINATE, Some(NUMBER));
    let compare = Some(NUMBER);
    let fun = AtomicFunction::Exchange { compare };
    vec![
        Statement::Store {
            pointer: PLACE,
            value: NUMBER,
        },
        Statement::ImageStore {
            image,
            coordinate,
            array_index,
            value: AT,
        },
        Statement::Atomic {
            pointer: SHARE,
            fun,
            value: NUMBER,
            result: Some(EARLIER),
        },
        Statement::Atomic {
            pointer: SHARE,
            fun: AtomicFunction::Add,
            value: NUMBER,
            result: None,
        },
        Statement::ImageAtomic {
            image,
            coordinate,
            array_index,
            fun,
            value: NUMBER,
        },
        Statement::WorkGroupUniformLoad {
            pointer: SHARE,
            result: UNIFORM,
        },
    ]
}

fn rays() -> Vec<Statement> {
    let (acceleration_structure, descriptor) = (HIT, BUILT);
    let steps = [
        RayQueryFunction::Initialize {
            acceleration_structure,
            descriptor,
        },
        RayQueryFunction::Proceed { result: PROCEEDS },
        RayQueryFunction::GenerateIntersection { hit_t: SCALAR },
        RayQueryFunction::ConfirmIntersection,
        RayQueryFunction::Terminate,
    ];
    let mut rays: Vec<_> = steps
        .map(|fun| Statement::RayQuery { query: RAY, fun })
        .into();
    rays.push(Statement::TraceRay {
        acceleration_structure,
        descriptor,
        payload: CARRIED,
    });
    rays
}

fn subgroups() -> Vec<Statement> {
    let (argument, result) = (NUMBER, GATHERED);
    let modes = [
        GatherMode::BroadcastFirst,
        GatherMode::Broadcast(NUMBER),
        GatherMode::Shuffle(NUMBER),
        GatherMode::ShuffleDown(NUMBER),
        GatherMode::ShuffleUp(NUMBER),
        GatherMode::ShuffleXor(NUMBER),
        GatherMode::QuadBroadcast(NUMBER),
        GatherMode::QuadSwap,
    ];
    let mut subgroups = vec![Statement::SubgroupBallot {
        result: VOTES,
        predicate: Some(HOLDS),
    }];
    subgroups.extend(modes.map(|mode| Statement::SubgroupGather {
        mode,
        argument,
        result,
    }));
    subgroups.push(Statement::SubgroupCollectiveOperation {
        op: SubgroupOperation::Add,
        collective_op: CollectiveOperation::Reduce,
        argument,
        result,
    });
    subgroups
}

fn statements(callee: Handle<Function>) -> Vec<Statement> {
    let mut statements = vec![
        Statement::Emit(NUMBER.index()..PRODUCT.index()),
        blocks(),
        Statement::ControlBarrier(Barrier::WORK_GROUP),
        Statement::MemoryBarrier(Barrier::WORK_GROUP),
    ];
    statements.extend(writes());
    statements.push(Statement::Call {
        function: callee,
        arguments: vec![NUMBER, NUMBER],
        result: Some(CALLED),
    });
    statements.extend(rays());
    statements.extend(subgroups());
    statements.push(Statement::CooperativeStore {
        target: PRODUCT,
        pointer: PLACE,
        stride: NUMBER,
    });
    statements.push(Statement::Return {
        value: Some(NUMBER),
    });
    statements
}

fn caller(
    types: &Types,
    first: &Values,
    variables: &Variables,
    callee: Handle<Function>,
) -> Function {
    let [left, right, sum] = types.matrices;
    let parts = [
        plain_values(types, first),
        references(variables),
        samples(),
        texels(),
        operations(),
        results(types, callee),
    ];
    let mut caller = function(&[left, right, sum, types.pair], types.u32);
    caller.add_local_variable(LocalVariable::new(types.u32).with_init(NUMBER));
    caller.add_local_variable(LocalVariable::new(types.ray));
    caller.expressions = parts.concat();
    caller.named_expressions = vec![(NUMBER, String::new())];
    caller.body = statements(callee);
    caller.diagnostic_filter_leaf = Some(Handle::new(1));
    caller
}

/// A function that loads a cooperative matrix.
fn loader(f32: Handle<Type>) -> Function {
    let mut loader = Function::default();
    let into = loader.add_local_variable(LocalVariable::new(f32));
    let pointer = loader.add_expression(Expression::LocalVariable(into));
    let stride = loader.add_expression(Expression::Literal(Literal::U32(8)));
    loader.add_expression(Expression::CooperativeLoad {
        shape: None,
        pointer,
        stride,
    });
    loader
}

fn main_function(types: &Types, callee: Handle<Function>) -> Function {
    let mut main = function(&[types.u32], types.u32);
    main.diagnostic_filter_leaf = Some(Handle::new(0));
    let held = main.add_local_variable(LocalVariable::new(types.u32));
    let own = main.add_expression(Expression::FunctionArgument(0));
    let taken = main.add_expression(Expression::CallResult(callee));
    main.add_expression(Expression::LocalVariable(held));
    main.named_expressions.push((taken, String::new()));
    main.body = vec![
        Statement::Call {
            function: callee,
            arguments: vec![own, own],
            result: Some(taken),
        },
        Statement::Return { value: Some(taken) },
    ];
    main
}

fn add_settings(words: &mut Words, types: &Types) {
    words.set_capabilities(Capabilities::ALL);
    let special = SpecialTypes::new()
        .with_ray_desc(types.pair)
        .with_ray_intersection(types.pair)
        .with_ray_vertex_return(types.array);
    words.set_special_types(special);
    words.add_predeclared_type(types.pair);
    words.add_predeclared_type(types.array);
    let parent = words.add_diagnostic_filter(DiagnosticFilterNode::new());
    let child = words.add_diagnostic_filter(DiagnosticFilterNode::new().with_parent(parent));
    words.set_diagnostic_filter_leaf(child);
}

fn main() -> Result<(), Box<dyn std::error::Error>> {
    let mut words = Words::with_header();
    let (u32, first) = add_first_values(&mut words);
    let types = add_types(&mut words, u32, first.count);
    let size = add_values(&mut words, &types, &first);
    let variables = add_variables(&mut words, &types, first.four);
    add_settings(&mut words, &types);
    let callee = add_callee(&mut words, u32);
    let caller = words.add_function(&caller(&types, &first, &variables, callee));
    words.add_function(&loader(types.f32));
    let ty = types.pair;
    let mesh_info = MeshStageInfo::new(variables.private, ty, ty)
        .with_max_vertices_override(size)
        .with_max_primitives_override(first.four);
    let main = EntryPoint::new("main", main_function(&types, callee))
        .with_workgroup_size_overrides([size, first.four, first.four].map(Some))
        .with_task_payload(variables.payload)
        .with_mesh_info(mesh_info);
    let main = words.add_entry_point(&main);
    for on in [
        Documented::StructMember { ty, index: 1 },
        Documented::Type(ty),
        Documented::Function(caller),
        Documented::EntryPoint(main),
        Documented::Constant(first.four_constant),
        Documented::GlobalVariable(variables.private),
    ] {
        words.add_comment(on);
    }
    for word in words.finish()? {
        println!("{word}");
    }
    Ok(())
}
