//! Builds a module that says what no rule reads, the one of `bindings/tests/fields.txt`, and prints its words: bindings,
//! stages and sizes of workgroups, early depth tests, meshes, formats, values of cases, memory of barriers, scans, shapes
//! of cooperative matrices, and the functions on packed numbers.

use naga_check::*;

/// The types that the other items name.
struct Types {
    u32: Handle<Type>,
    f32: Handle<Type>,
    vec4: Handle<Type>,
    varyings: Handle<Type>,
    stored: Handle<Type>,
}

fn location(
    location: u32,
    interpolation: Option<Interpolation>,
    sampling: Option<Sampling>,
    per_primitive: bool,
) -> Binding {
    Binding::Location {
        location,
        interpolation,
        sampling,
        blend_src: None,
        per_primitive,
    }
}

fn at_position(invariant: bool, vec4: Handle<Type>) -> StructMember {
    let position = Binding::BuiltIn(BuiltIn::Position { invariant });
    StructMember::at(0, vec4)
        .named("place")
        .with_binding(position)
}

fn add_varyings(
    words: &mut Words,
    u32: Handle<Type>,
    f32: Handle<Type>,
    vec4: Handle<Type>,
) -> Handle<Type> {
    use Interpolation::{Flat, Linear, PerVertex, Perspective};
    use Sampling::{Center, Centroid, Either, First, Sample};
    let at = |offset, ty, binding| StructMember::at(offset, ty).with_binding(binding);
    let linear = Some(Linear);
    let shade = at(16, f32, location(0, linear, None, false)).named("shade");
    let part = location(2, Some(Flat), Some(Either), true);
    let members = vec![
        at_position(true, vec4),
        shade.clone(),
        at(
            20,
            f32,
            location(1, Some(Perspective), Some(Centroid), false),
        ),
        at(24, u32, part).named("part"),
        at(28, f32, location(3, None, Some(Center), false)),
        at(32, f32, location(4, None, Some(Sample), false)),
        at(36, u32, location(5, Some(Flat), Some(First), false)),
        at(40, f32, location(6, Some(PerVertex), None, false)),
        at(44, f32, Binding::location(7)),
    ];
    let varyings = Type::new(TypeInner::Struct { members, span: 48 }).named("Varyings");
    let varyings = words.add_type(varyings);
    let of_primitive = shade.clone().with_binding(location(0, linear, None, true));
    for member in [shade, of_primitive] {
        let members = vec![at_position(false, vec4), member];
        words.add_type(TypeInner::Struct { members, span: 48 });
    }
    varyings
}

fn add_images(words: &mut Words) -> Handle<Type> {
    use ImageDimension::{D1, D2, D3};
    use StorageFormat::{Bgra8Unorm, R64Uint, R8Unorm, Rgba16Snorm, Rgba8Unorm};
    let (load, store) = (StorageAccess::LOAD, StorageAccess::STORE);
    let all = load | store | StorageAccess::ATOMIC;
    let stored = [
        (D2, false, R8Unorm, StorageAccess::default()),
        (D2, false, Rgba8Unorm, store),
        (D2, true, Bgra8Unorm, load | store),
        (D1, false, R64Uint, all),
        (D3, false, Rgba16Snorm, load),
    ]
    .map(|(dim, arrayed, format, access)| {
        let class = ImageClass::Storage { format, access };
        words.add_type(TypeInner::Image {
            dim,
            arrayed,
            class,
        })
    });
    for kind in [ScalarKind::Sint, ScalarKind::Uint] {
        words.add_type(TypeInner::Image {
            dim: D2,
            arrayed: false,
            class: ImageClass::Sampled { kind, multi: true },
        });
    }
    stored[1]
}

fn add_types(words: &mut Words) -> Types {
    let u32 = words.add_type(TypeInner::Scalar(Scalar::U32));
    words.add_type(TypeInner::Scalar(Scalar::I32));
    let f32 = words.add_type(TypeInner::Scalar(Scalar::F32));
    let vec4 = words.add_type(TypeInner::Vector {
        size: VectorSize::Quad,
        scalar: Scalar::F32,
    });
    let varyings = add_varyings(words, u32, f32, vec4);
    let stored = add_images(words);
    Types {
        u32,
        f32,
        vec4,
        varyings,
        stored,
    }
}

/// Adds the variables, and returns the private one.
fn add_variables(words: &mut Words, types: &Types) -> Handle<GlobalVariable> {
    let (coherent, volatile) = (MemoryDecorations::COHERENT, MemoryDecorations::VOLATILE);
    let access = StorageAccess::LOAD | StorageAccess::STORE;
    let buffer = || GlobalVariable::new(AddressSpace::Storage { access }, types.u32);
    let numbers = buffer()
        .named("numbers")
        .with_binding(ResourceBinding::new(0, 1))
        .with_memory_decorations(coherent | volatile);
    let uniform = GlobalVariable::new(AddressSpace::Uniform, types.vec4)
        .with_binding(ResourceBinding::new(u32::MAX, 0));
    let watched = buffer()
        .with_binding(ResourceBinding::new(2, 3))
        .with_memory_decorations(volatile);
    let texels = GlobalVariable::new(AddressSpace::Handle, types.stored)
        .with_binding(ResourceBinding::new(0, 2));
    words.add_global_variable(&numbers);
    words.add_global_variable(&uniform);
    words.add_global_variable(&buffer().with_memory_decorations(coherent));
    words.add_global_variable(&watched);
    words.add_global_variable(&texels);
    words.add_global_variable(&GlobalVariable::new(AddressSpace::Private, types.u32))
}

const NUMBER: Handle<Expression> = Handle::new(0);

/// The functions that take one number, or two numbers, each with how many.
const FUNCTIONS: [(MathFunction, usize); 21] = [
    (MathFunction::Modf, 1),
    (MathFunction::Frexp, 1),
    (MathFunction::Ldexp, 2),
    (MathFunction::Dot4I8Packed, 2),
    (MathFunction::Dot4U8Packed, 2),
    (MathFunction::Outer, 2),
    (MathFunction::Inverse, 1),
    (MathFunction::Pack4x8snorm, 1),
    (MathFunction::Pack4x8unorm, 1),
    (MathFunction::Pack2x16snorm, 1),
    (MathFunction::Pack2x16unorm, 1),
    (MathFunction::Pack4xI8, 1),
    (MathFunction::Pack4xU8, 1),
    (MathFunction::Pack4xI8Clamp, 1),
    (MathFunction::Pack4xU8Clamp, 1),
    (MathFunction::Unpack4x8snorm, 1),
    (MathFunction::Unpack4x8unorm, 1),
    (MathFunction::Unpack2x16snorm, 1),
    (MathFunction::Unpack2x16unorm, 1),
    (MathFunction::Unpack4xI8, 1),
    (MathFunction::Unpack4xU8, 1),
];

fn add_values(function: &mut Function) {
    use CooperativeRole::{A, B, C};
    use CooperativeSize::{Eight, Sixteen};
    function.add_expression(Expression::FunctionArgument(0));
    for (fun, count) in FUNCTIONS {
        function.add_expression(Expression::Math {
            fun,
            arg: NUMBER,
            arg1: (count > 1).then_some(NUMBER),
            arg2: None,
            arg3: None,
        });
    }
    for shape in [
        None,
        Some(CooperativeShape::new(Eight, Sixteen, A)),
        Some(CooperativeShape::new(Sixteen, Eight, B)),
        Some(CooperativeShape::new(Sixteen, Sixteen, C)),
    ] {
        function.add_expression(Expression::CooperativeLoad {
            shape,
            pointer: NUMBER,
            stride: NUMBER,
        });
    }
}

fn cases() -> Vec<SwitchCase> {
    let case = || SwitchCase::new(vec![]);
    vec![
        case()
            .with_value(SwitchValue::I32(i32::MIN))
            .falling_through(),
        case().with_value(SwitchValue::I32(i32::MAX)),
        case().with_value(SwitchValue::U32(u32::MAX)),
        case(),
        case().falling_through(),
        SwitchCase::new(vec![Statement::Break]).with_value(SwitchValue::Default),
    ]
}

fn statements() -> Vec<Statement> {
    let texture_and_subgroup = Barrier::TEXTURE | Barrier::SUB_GROUP;
    let all = texture_and_subgroup | Barrier::STORAGE | Barrier::WORK_GROUP;
    let mut statements = vec![
        Statement::Switch {
            selector: NUMBER,
            cases: cases(),
        },
        Statement::ControlBarrier(Barrier::WORK_GROUP),
        Statement::ControlBarrier(Barrier::default()),
        Statement::ControlBarrier(Barrier::STORAGE),
        Statement::MemoryBarrier(Barrier::WORK_GROUP),
        Statement::MemoryBarrier(texture_and_subgroup),
        Statement::MemoryBarrier(all),
    ];
    let collectives = [
        (SubgroupOperation::Add, CollectiveOperation::Reduce),
        (SubgroupOperation::Mul, CollectiveOperation::InclusiveScan),
        (SubgroupOperation::Max, CollectiveOperation::ExclusiveScan),
    ];
    statements.extend(collectives.map(|(op, collective_op)| {
        Statement::SubgroupCollectiveOperation {
            op,
            collective_op,
            argument: NUMBER,
            result: NUMBER,
        }
    }));
    let value = Some(NUMBER);
    statements.push(Statement::Return { value });
    statements
}

fn packed(u32: Handle<Type>) -> Function {
    let mut packed = Function::new();
    packed.arguments = vec![FunctionArgument::new(u32).named("number")];
    packed.result = Some(FunctionResult::new(u32));
    add_values(&mut packed);
    packed.body = statements();
    packed
}

/// A function with these arguments and maybe a result.
fn function(arguments: Vec<FunctionArgument>, result: Option<FunctionResult>) -> Function {
    let mut function = Function::new();
    function.arguments = arguments;
    function.result = result;
    function
}

/// An argument that is a built-in value.
fn given(ty: Handle<Type>, value: BuiltIn) -> FunctionArgument {
    FunctionArgument::new(ty).with_binding(Binding::BuiltIn(value))
}

fn fragment_shaders(types: &Types) -> [EntryPoint; 4] {
    let barycentric = BuiltIn::Barycentric { perspective: true };
    let blended = Binding::Location {
        location: 0,
        interpolation: None,
        sampling: None,
        blend_src: Some(1),
        per_primitive: false,
    };
    let flat = location(8, Some(Interpolation::Flat), None, false);
    let shade = function(
        vec![
            FunctionArgument::new(types.varyings),
            given(types.u32, BuiltIn::SampleIndex),
            given(types.vec4, barycentric).named("barycentric"),
            FunctionArgument::new(types.u32).with_binding(flat),
        ],
        Some(FunctionResult::new(types.vec4).with_binding(blended)),
    );
    let position = BuiltIn::Position { invariant: false };
    let depth = Binding::BuiltIn(BuiltIn::FragDepth);
    let depth = function(
        vec![given(types.vec4, position)],
        Some(FunctionResult::new(types.f32).with_binding(depth)),
    );
    let allow = |conservative| EarlyDepthTest::Allow { conservative };
    [
        ("shade", shade, EarlyDepthTest::Force),
        ("depth", depth, allow(ConservativeDepth::GreaterEqual)),
        ("less", Function::new(), allow(ConservativeDepth::LessEqual)),
        ("same", Function::new(), allow(ConservativeDepth::Unchanged)),
    ]
    .map(|(name, function, test)| {
        EntryPoint::new(name, function)
            .with_stage(ShaderStage::Fragment)
            .with_early_depth_test(test)
    })
}

fn mesh_shaders(types: &Types, private: Handle<GlobalVariable>) -> [EntryPoint; 4] {
    let mesh = || MeshStageInfo::new(private, types.varyings, types.varyings);
    let triangles = mesh()
        .with_topology(MeshOutputTopology::Triangles)
        .with_max_vertices(64)
        .with_max_primitives(126);
    let lines = mesh().with_topology(MeshOutputTopology::Lines);
    let shader = |name, mesh| {
        EntryPoint::new(name, Function::new())
            .with_stage(ShaderStage::Mesh)
            .with_mesh_info(mesh)
    };
    [
        shader("points", mesh())
            .with_workgroup_size([1, 0, u32::MAX])
            .with_task_payload(private),
        shader("lines", lines).with_workgroup_size([1; 3]),
        shader("triangles", triangles),
        shader("most", mesh().with_max_primitives(1)),
    ]
}

fn other_shaders(types: &Types) -> Vec<EntryPoint> {
    let u32 = types.u32;
    let index = given(u32, BuiltIn::LocalInvocationIndex);
    let compute = EntryPoint::new("compute", function(vec![index], None))
        .with_stage(ShaderStage::Compute)
        .with_workgroup_size([8, 4, 1])
        .with_workgroup_size_overrides([None; 3]);
    let vertex = vec![given(u32, BuiltIn::VertexIndex)];
    let vertex = function(vertex, Some(FunctionResult::new(types.varyings)));
    let hit = function(vec![given(u32, BuiltIn::HitKind)], None);
    let staged = |name, stage, function| EntryPoint::new(name, function).with_stage(stage);
    let empty = Function::new;
    vec![
        compute,
        staged("vertices", ShaderStage::Vertex, vertex),
        staged("tasks", ShaderStage::Task, empty()).with_workgroup_size([32, 1, 1]),
        staged("rays", ShaderStage::RayGeneration, empty()),
        staged("misses", ShaderStage::Miss, empty()),
        staged("hits", ShaderStage::AnyHit, empty()),
        staged("closest", ShaderStage::ClosestHit, hit),
        EntryPoint::new("free", empty()),
    ]
}

fn main() -> Result<(), Box<dyn std::error::Error>> {
    let mut words = Words::with_header();
    words.set_capabilities(Capabilities::ALL);
    let types = add_types(&mut words);
    let private = add_variables(&mut words, &types);
    words.add_function(&packed(types.u32));
    let shaders = fragment_shaders(&types).into_iter();
    let shaders = shaders.chain(mesh_shaders(&types, private));
    for entry_point in shaders.chain(other_shaders(&types)) {
        words.add_entry_point(&entry_point);
    }
    for word in words.finish()? {
        println!("{word}");
    }
    Ok(())
}
