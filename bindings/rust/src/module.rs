//! What a module holds besides types, expressions and statements, as in naga.

use crate::bindings::{Binding, MemoryDecorations, ResourceBinding};
use crate::expressions::Expression;
use crate::operands::{builders, setters, Handle};
use crate::stages::{EarlyDepthTest, MeshOutputTopology, ShaderStage};
use crate::statements::Block;
use crate::types::{AddressSpace, Type};

/// A value with a name, known when the shader is compiled.
#[derive(Clone, Debug, PartialEq, Eq)]
#[non_exhaustive]
pub struct Constant {
    /// The name, if the constant has one.
    pub name: Option<String>,
    /// The type.
    pub ty: Handle<Type>,
    /// The value: a global expression.
    pub init: Handle<Expression>,
}

impl Constant {
    /// A constant without a name.
    #[must_use]
    pub const fn new(ty: Handle<Type>, init: Handle<Expression>) -> Constant {
        Constant {
            name: None,
            ty,
            init,
        }
    }
}

builders! {
    Constant {
        /// Sets the name.
        named(name: impl Into<String>),
    }
}

/// A value that is given when a pipeline is made, by its name or its number.
#[derive(Clone, Debug, PartialEq, Eq)]
#[non_exhaustive]
pub struct Override {
    /// The name, if the override has one.
    pub name: Option<String>,
    /// The number by which a pipeline may give the value (WGSL, "id").
    pub id: Option<u16>,
    /// The type.
    pub ty: Handle<Type>,
    /// The value if the pipeline gives none: a global expression.
    pub init: Option<Handle<Expression>>,
}

impl Override {
    /// An override without a name, a number and a value of its own.
    #[must_use]
    pub const fn new(ty: Handle<Type>) -> Override {
        Override {
            name: None,
            id: None,
            ty,
            init: None,
        }
    }
}

builders! {
    Override {
        /// Sets the name.
        named(name: impl Into<String>),
        /// Sets the number by which a pipeline may give the value.
        with_id(id: u16),
        /// Sets the value if the pipeline gives none: a global expression.
        with_init(init: Handle<Expression>),
    }
}

/// A variable of the module.
#[derive(Clone, Debug, PartialEq, Eq)]
#[non_exhaustive]
pub struct GlobalVariable {
    /// The name, if the variable has one.
    pub name: Option<String>,
    /// Where the variable is kept.
    pub space: AddressSpace,
    /// Where a pipeline binds it, of a resource.
    pub binding: Option<ResourceBinding>,
    /// The type.
    pub ty: Handle<Type>,
    /// The first value: a global expression.
    pub init: Option<Handle<Expression>>,
    /// What holds of each access to it.
    pub memory_decorations: MemoryDecorations,
}

impl GlobalVariable {
    /// A variable without a name, a binding, a first value and decorations.
    #[must_use]
    pub const fn new(space: AddressSpace, ty: Handle<Type>) -> GlobalVariable {
        GlobalVariable {
            name: None,
            space,
            binding: None,
            ty,
            init: None,
            memory_decorations: MemoryDecorations::NONE,
        }
    }
}

setters! {
    GlobalVariable {
        /// Sets what holds of each access to it.
        with_memory_decorations(memory_decorations: MemoryDecorations),
    }
}

builders! {
    GlobalVariable {
        /// Sets the name.
        named(name: impl Into<String>),
        /// Sets where a pipeline binds it, of a resource.
        with_binding(binding: ResourceBinding),
        /// Sets the first value: a global expression.
        with_init(init: Handle<Expression>),
    }
}

/// A variable of a function.
#[derive(Clone, Debug, PartialEq, Eq)]
#[non_exhaustive]
pub struct LocalVariable {
    /// The name, if the variable has one.
    pub name: Option<String>,
    /// The type.
    pub ty: Handle<Type>,
    /// The first value: an expression of the function.
    pub init: Option<Handle<Expression>>,
}

impl LocalVariable {
    /// A variable without a name and a first value.
    #[must_use]
    pub const fn new(ty: Handle<Type>) -> LocalVariable {
        LocalVariable {
            name: None,
            ty,
            init: None,
        }
    }
}

builders! {
    LocalVariable {
        /// Sets the name.
        named(name: impl Into<String>),
        /// Sets the first value: an expression of the function.
        with_init(init: Handle<Expression>),
    }
}

/// An argument of a function.
#[derive(Clone, Debug, PartialEq, Eq)]
#[non_exhaustive]
pub struct FunctionArgument {
    /// The name, if the argument has one.
    pub name: Option<String>,
    /// The type.
    pub ty: Handle<Type>,
    /// Of an entry point, where the value comes from.
    pub binding: Option<Binding>,
}

impl FunctionArgument {
    /// An argument without a name and a binding.
    #[must_use]
    pub const fn new(ty: Handle<Type>) -> FunctionArgument {
        FunctionArgument {
            name: None,
            ty,
            binding: None,
        }
    }
}

builders! {
    FunctionArgument {
        /// Sets the name.
        named(name: impl Into<String>),
        /// Sets where the value comes from, of an entry point.
        with_binding(binding: Binding),
    }
}

/// What a function returns.
#[derive(Clone, Debug, PartialEq, Eq)]
#[non_exhaustive]
pub struct FunctionResult {
    /// The type.
    pub ty: Handle<Type>,
    /// Of an entry point, where the value goes to.
    pub binding: Option<Binding>,
}

impl FunctionResult {
    /// A result without a binding.
    #[must_use]
    pub const fn new(ty: Handle<Type>) -> FunctionResult {
        FunctionResult { ty, binding: None }
    }
}

builders! {
    FunctionResult {
        /// Sets where the value goes to, of an entry point.
        with_binding(binding: Binding),
    }
}

/// A function: its arguments, its result, and its body.
#[derive(Clone, Debug, Default, PartialEq, Eq)]
#[non_exhaustive]
pub struct Function {
    /// The name, if the function has one. The function of an entry point needs none.
    pub name: Option<String>,
    /// The arguments.
    pub arguments: Vec<FunctionArgument>,
    /// What it returns.
    pub result: Option<FunctionResult>,
    /// Its variables.
    pub local_variables: Vec<LocalVariable>,
    /// Its expressions: each follows its operands.
    pub expressions: Vec<Expression>,
    /// Names that the source gives to expressions.
    pub named_expressions: Vec<(Handle<Expression>, String)>,
    /// Its statements.
    pub body: Block,
    /// The innermost of the filters that apply to the function.
    pub diagnostic_filter_leaf: Option<Handle<DiagnosticFilterNode>>,
}

impl Function {
    /// A function without parts. They are its fields.
    #[must_use]
    pub fn new() -> Function {
        Function::default()
    }

    /// Adds a variable, and returns its handle.
    ///
    /// # Panics
    ///
    /// If there are `u32::MAX` variables.
    pub fn add_local_variable(&mut self, variable: LocalVariable) -> Handle<LocalVariable> {
        append(&mut self.local_variables, variable)
    }

    /// Adds an expression, and returns its handle.
    ///
    /// # Panics
    ///
    /// If there are `u32::MAX` expressions.
    pub fn add_expression(&mut self, expression: Expression) -> Handle<Expression> {
        append(&mut self.expressions, expression)
    }
}

builders! {
    Function {
        /// Sets the name.
        named(name: impl Into<String>),
    }
}

/// Adds an item to a list, and returns its handle.
fn append<T>(items: &mut Vec<T>, item: T) -> Handle<T> {
    let index = u32::try_from(items.len()).expect("a function has fewer items than `u32::MAX`");
    items.push(item);
    Handle::new(index)
}

/// The output of a mesh shader.
#[derive(Clone, Copy, Debug, PartialEq, Eq)]
#[non_exhaustive]
pub struct MeshStageInfo {
    /// What its primitives are.
    pub topology: MeshOutputTopology,
    /// The greatest number of vertices, unless overrides decide it.
    pub max_vertices: u32,
    /// The greatest number of primitives, unless overrides decide it.
    pub max_primitives: u32,
    /// The variable that it writes its output to.
    pub output_variable: Handle<GlobalVariable>,
    /// The type of a vertex.
    pub vertex_output_type: Handle<Type>,
    /// The type of a primitive.
    pub primitive_output_type: Handle<Type>,
    /// The greatest number of vertices, if overrides decide it: a global expression.
    pub max_vertices_override: Option<Handle<Expression>>,
    /// The greatest number of primitives, if overrides decide it: a global expression.
    pub max_primitives_override: Option<Handle<Expression>>,
}

impl MeshStageInfo {
    /// An output of points whose greatest numbers are 0 and decided by no override.
    #[must_use]
    pub const fn new(
        output_variable: Handle<GlobalVariable>,
        vertex_output_type: Handle<Type>,
        primitive_output_type: Handle<Type>,
    ) -> MeshStageInfo {
        MeshStageInfo {
            topology: MeshOutputTopology::Points,
            max_vertices: 0,
            max_primitives: 0,
            output_variable,
            vertex_output_type,
            primitive_output_type,
            max_vertices_override: None,
            max_primitives_override: None,
        }
    }
}

setters! {
    MeshStageInfo {
        /// Sets what its primitives are.
        with_topology(topology: MeshOutputTopology),
        /// Sets the greatest number of vertices.
        with_max_vertices(max_vertices: u32),
        /// Sets the greatest number of primitives.
        with_max_primitives(max_primitives: u32),
    }
}

builders! {
    MeshStageInfo {
        /// Sets the override of the greatest number of vertices: a global expression.
        with_max_vertices_override(max_vertices_override: Handle<Expression>),
        /// Sets the override of the greatest number of primitives: a global expression.
        with_max_primitives_override(max_primitives_override: Handle<Expression>),
    }
}

/// A function that a pipeline calls first in one of its stages.
#[derive(Clone, Debug, Default, PartialEq, Eq)]
#[non_exhaustive]
pub struct EntryPoint {
    /// The name by which a pipeline calls it.
    pub name: String,
    /// The stage, if it is said.
    pub stage: Option<ShaderStage>,
    /// Of a fragment shader, whether depths are tested before it runs.
    pub early_depth_test: Option<EarlyDepthTest>,
    /// The sizes of a workgroup in three dimensions, of a shader that has workgroups; else three times 0.
    pub workgroup_size: [u32; 3],
    /// The sizes of a workgroup in three dimensions, if overrides decide them: global expressions.
    pub workgroup_size_overrides: Option<[Option<Handle<Expression>>; 3]>,
    /// The function, whose own name has no words.
    pub function: Function,
    /// The variable that a task shader hands to its mesh shaders.
    pub task_payload: Option<Handle<GlobalVariable>>,
    /// The output, of a mesh shader.
    pub mesh_info: Option<MeshStageInfo>,
}

impl EntryPoint {
    /// An entry point of a name and a function, of which nothing else is said.
    #[must_use]
    pub fn new(name: impl Into<String>, function: Function) -> EntryPoint {
        EntryPoint {
            name: name.into(),
            function,
            ..EntryPoint::default()
        }
    }
}

setters! {
    EntryPoint {
        /// Sets the sizes of a workgroup.
        with_workgroup_size(workgroup_size: [u32; 3]),
    }
}

builders! {
    EntryPoint {
        /// Sets the stage.
        with_stage(stage: ShaderStage),
        /// Sets whether depths are tested before it runs, of a fragment shader.
        with_early_depth_test(early_depth_test: EarlyDepthTest),
        /// Sets the sizes of a workgroup that overrides decide: global expressions.
        with_workgroup_size_overrides(workgroup_size_overrides: [Option<Handle<Expression>>; 3]),
        /// Sets the variable that a task shader hands to its mesh shaders.
        with_task_payload(task_payload: Handle<GlobalVariable>),
        /// Sets the output of a mesh shader.
        with_mesh_info(mesh_info: MeshStageInfo),
    }
}

/// A filter of diagnostics (WGSL, "Filtering Diagnostics"), which applies together with its parents.
#[derive(Clone, Copy, Debug, Default, PartialEq, Eq)]
#[non_exhaustive]
pub struct DiagnosticFilterNode {
    /// The filter of the enclosing scope.
    pub parent: Option<Handle<DiagnosticFilterNode>>,
}

impl DiagnosticFilterNode {
    /// A filter without a parent.
    #[must_use]
    pub const fn new() -> DiagnosticFilterNode {
        DiagnosticFilterNode { parent: None }
    }
}

builders! {
    DiagnosticFilterNode {
        /// Sets the filter of the enclosing scope.
        with_parent(parent: Handle<DiagnosticFilterNode>),
    }
}

/// Types that some built-in functions take or return. Those of `predeclared_types` are added one by one, by
/// [`Words::add_predeclared_type`](crate::Words::add_predeclared_type).
#[derive(Clone, Copy, Debug, Default, PartialEq, Eq)]
#[non_exhaustive]
pub struct SpecialTypes {
    /// The descriptor that begins a ray query.
    pub ray_desc: Option<Handle<Type>>,
    /// What a ray query says of an intersection.
    pub ray_intersection: Option<Handle<Type>>,
    /// The corners of a triangle that a ray has hit.
    pub ray_vertex_return: Option<Handle<Type>>,
}

impl SpecialTypes {
    /// No types.
    #[must_use]
    pub fn new() -> SpecialTypes {
        SpecialTypes::default()
    }
}

builders! {
    SpecialTypes {
        /// Sets the descriptor that begins a ray query.
        with_ray_desc(ray_desc: Handle<Type>),
        /// Sets what a ray query says of an intersection.
        with_ray_intersection(ray_intersection: Handle<Type>),
        /// Sets the corners of a triangle that a ray has hit.
        with_ray_vertex_return(ray_vertex_return: Handle<Type>),
    }
}

/// What a comment of the source documents. Its text has no words.
#[derive(Clone, Copy, Debug, PartialEq, Eq)]
#[non_exhaustive]
pub enum Documented {
    /// A type.
    Type(Handle<Type>),
    /// A member of a struct.
    StructMember {
        /// The struct.
        ty: Handle<Type>,
        /// The index of the member, from 0: below `u32::MAX`.
        index: u32,
    },
    /// A function.
    Function(Handle<Function>),
    /// The entry point of this index, from 0: below `u32::MAX`.
    EntryPoint(u32),
    /// A constant.
    Constant(Handle<Constant>),
    /// A variable of the module.
    GlobalVariable(Handle<GlobalVariable>),
}
