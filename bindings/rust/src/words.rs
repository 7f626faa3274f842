//! The builder of modules as words.

use crate::bindings::{MemoryDecorations, OptionalBinding, OptionalResourceBinding};
use crate::expressions::{halves, Expression};
use crate::flags::{Capabilities, ValidationFlags};
use crate::module::{
    Constant, DiagnosticFilterNode, Documented, EntryPoint, Function, FunctionArgument,
    GlobalVariable, LocalVariable, MeshStageInfo, Override, SpecialTypes,
};
use crate::operands::{Handle, Operand};
use crate::stages::{EntryStage, MeshOutputTopology};
use crate::statements::{Block, OptionalSwitchValue, Statement, SwitchCase};
use crate::sys;
use crate::types::Type;
use std::collections::hash_map::{Entry, HashMap};
use std::fmt;

/// The most blocks that may be open at a time.
const MOST_OPEN_BLOCKS: u32 = 127;

/// Why a module has no words.
#[derive(Clone, Copy, Debug, PartialEq, Eq)]
#[non_exhaustive]
pub enum BuildError {
    /// An item has more operands than can be written: more than 16777215.
    ItemTooLong,
    /// A block is nested within 127 others.
    BlocksTooDeep,
    /// There are more than 4294967295 items of a kind.
    TooManyItems,
}

impl fmt::Display for BuildError {
    fn fmt(&self, f: &mut fmt::Formatter<'_>) -> fmt::Result {
        f.write_str(match self {
            BuildError::ItemTooLong => "An item has more than 16777215 operands",
            BuildError::BlocksTooDeep => "A block is nested within 127 others",
            BuildError::TooManyItems => "There are more than 4294967295 items of a kind",
        })
    }
}

impl std::error::Error for BuildError {}

/// A module that is built item by item, and written as words.
///
/// The items of a kind are numbered in the order in which they are added. `finish` returns the words, which
/// [`check_words`](crate::check_words) and the other calls read.
///
/// ```
/// use naga_check::{Scalar, StructMember, TypeInner, VectorSize, Words};
///
/// let mut words = Words::new();
/// let number = words.add_type(TypeInner::Scalar(Scalar::U32));
/// let vector = words.add_type(TypeInner::Vector { size: VectorSize::Quad, scalar: Scalar::F32 });
/// let members = vec![StructMember::at(0, number), StructMember::at(16, vector)];
/// let pair = words.add_type(TypeInner::Struct { members, span: 32 });
/// assert_eq!(pair.index(), 2);
/// assert_eq!(words.finish()?[..4], [3 << 8 | 16, u32::MAX, 1, 4]);
/// # Ok::<(), naga_check::BuildError>(())
/// ```
#[derive(Clone, Debug, Default)]
pub struct Words {
    words: Vec<u32>,
    /// The index of each type, by the words of its item.
    types: HashMap<Box<[u32]>, u32>,
    constants: u32,
    overrides: u32,
    global_variables: u32,
    global_expressions: u32,
    functions: u32,
    entry_points: u32,
    diagnostic_filters: u32,
    settings: Settings,
    /// The first item that can't be written.
    error: Option<BuildError>,
}

/// The items that a module has once at most.
#[derive(Clone, Debug, Default)]
struct Settings {
    flags: Option<ValidationFlags>,
    capabilities: Option<Capabilities>,
    are_overrides_resolved: bool,
    special_types: Option<SpecialTypes>,
    diagnostic_filter_leaf: Option<Handle<DiagnosticFilterNode>>,
}

impl Words {
    /// The empty module.
    #[must_use]
    pub fn new() -> Words {
        Words::default()
    }

    /// The empty module, whose words begin with the header, by which a file of words can be told from any other.
    ///
    /// ```
    /// let words = naga_check::Words::with_header().finish()?;
    /// let bytes: Vec<u8> = words.iter().flat_map(|word| word.to_le_bytes()).collect();
    /// assert_eq!(&bytes[4..8], b"NAGW");
    /// # Ok::<(), naga_check::BuildError>(())
    /// ```
    #[must_use]
    pub fn with_header() -> Words {
        let mut words = Words::new();
        words.item(sys::NAGA_CHECK_OP_HEADER, |words| {
            words.extend([sys::NAGA_CHECK_MAGIC, sys::NAGA_CHECK_WORDS_VERSION]);
        });
        words
    }

    /// Sets which parts of the module are validated; without it all are.
    pub fn set_flags(&mut self, flags: ValidationFlags) {
        self.settings.flags = Some(flags);
    }

    /// Sets what the module may use; without it `Capabilities::default()`.
    pub fn set_capabilities(&mut self, capabilities: Capabilities) {
        self.settings.capabilities = Some(capabilities);
    }

    /// Requires that overrides have their values.
    pub fn require_resolved_overrides(&mut self) {
        self.settings.are_overrides_resolved = true;
    }

    /// Sets the types that some built-in functions take or return.
    pub fn set_special_types(&mut self, types: SpecialTypes) {
        self.settings.special_types = Some(types);
    }

    /// Sets the innermost of the filters that apply to the module.
    pub fn set_diagnostic_filter_leaf(&mut self, leaf: Handle<DiagnosticFilterNode>) {
        self.settings.diagnostic_filter_leaf = Some(leaf);
    }

    /// Adds a type, unless an equal one is there, and returns the handle of either, as naga's `UniqueArena::insert`.
    ///
    /// Types are equal if they have the same name and the same parts, the names of members included.
    pub fn add_type(&mut self, ty: impl Into<Type>) -> Handle<Type> {
        let ty = ty.into();
        let start = self.words.len();
        self.item(ty.inner.number(), |words| ty.write(words));
        let next = u32::try_from(self.types.len()).ok();
        let index = match self.types.entry(self.words[start..].into()) {
            Entry::Occupied(equal) => {
                self.words.truncate(start);
                Some(*equal.get())
            }
            Entry::Vacant(free) => next
                .filter(|index| *index != sys::NAGA_CHECK_NONE)
                .map(|index| *free.insert(index)),
        };
        self.handle_of(index)
    }

    /// Adds a type to those of the results of built-in functions.
    pub fn add_predeclared_type(&mut self, ty: Handle<Type>) {
        self.item(sys::NAGA_CHECK_OP_PREDECLARED_TYPE, |words| ty.write(words));
    }

    /// Adds a constant.
    pub fn add_constant(&mut self, constant: &Constant) -> Handle<Constant> {
        self.item(sys::NAGA_CHECK_OP_CONSTANT, |words| {
            constant.name.write(words);
            constant.ty.write(words);
            constant.init.write(words);
        });
        let index = next(&mut self.constants);
        self.handle_of(index)
    }

    /// Adds an override.
    pub fn add_override(&mut self, by: &Override) -> Handle<Override> {
        self.item(sys::NAGA_CHECK_OP_OVERRIDE, |words| {
            by.name.write(words);
            by.ty.write(words);
            by.init.write(words);
            by.id.map(u32::from).write(words);
        });
        let index = next(&mut self.overrides);
        self.handle_of(index)
    }

    /// Adds a variable of the module.
    pub fn add_global_variable(&mut self, variable: &GlobalVariable) -> Handle<GlobalVariable> {
        let decorations = variable.memory_decorations;
        let is_resource = variable.binding.is_some() || decorations != MemoryDecorations::NONE;
        let opcode = if is_resource {
            sys::NAGA_CHECK_OP_RESOURCE
        } else {
            sys::NAGA_CHECK_OP_GLOBAL_VARIABLE
        };
        self.item(opcode, |words| {
            variable.name.write(words);
            variable.space.write(words);
            variable.ty.write(words);
            variable.init.write(words);
            if is_resource {
                OptionalResourceBinding(variable.binding).write(words);
                words.push(decorations.word());
            }
        });
        let index = next(&mut self.global_variables);
        self.handle_of(index)
    }

    /// Adds an expression of the module.
    pub fn add_global_expression(&mut self, expression: &Expression) -> Handle<Expression> {
        self.expression(sys::NAGA_CHECK_OP_GLOBAL_EXPRESSION, expression);
        let index = next(&mut self.global_expressions);
        self.handle_of(index)
    }

    /// Adds a filter of diagnostics.
    pub fn add_diagnostic_filter(
        &mut self,
        filter: DiagnosticFilterNode,
    ) -> Handle<DiagnosticFilterNode> {
        self.item(sys::NAGA_CHECK_OP_FILTER, |words| {
            filter.parent.write(words)
        });
        let index = next(&mut self.diagnostic_filters);
        self.handle_of(index)
    }

    /// Adds a function.
    pub fn add_function(&mut self, function: &Function) -> Handle<Function> {
        self.item(sys::NAGA_CHECK_OP_FUNCTION, |words| {
            function.name.write(words)
        });
        self.parts(function);
        let index = next(&mut self.functions);
        self.handle_of(index)
    }

    /// Adds an entry point, and returns its index.
    pub fn add_entry_point(&mut self, entry_point: &EntryPoint) -> u32 {
        self.item(sys::NAGA_CHECK_OP_ENTRY_POINT, |words| {
            entry_point.name.write(words)
        });
        self.entry_parts(entry_point);
        self.parts(&entry_point.function);
        let index = next(&mut self.entry_points);
        self.handle_of::<EntryPoint>(index).index()
    }

    /// Adds that a comment documents something.
    pub fn add_comment(&mut self, on: Documented) {
        match on {
            Documented::Type(ty) => {
                self.item(sys::NAGA_CHECK_OP_COMMENT_ON_TYPE, |words| ty.write(words))
            }
            Documented::StructMember { ty, index } => {
                self.item(sys::NAGA_CHECK_OP_COMMENT_ON_MEMBER, |words| {
                    words.extend([ty.index(), index]);
                });
            }
            Documented::Function(function) => {
                self.item(sys::NAGA_CHECK_OP_COMMENT_ON_FUNCTION, |words| {
                    function.write(words)
                });
            }
            Documented::EntryPoint(index) => {
                self.item(sys::NAGA_CHECK_OP_COMMENT_ON_ENTRY_POINT, |words| {
                    index.write(words)
                });
            }
            Documented::Constant(constant) => {
                self.item(sys::NAGA_CHECK_OP_COMMENT_ON_CONSTANT, |words| {
                    constant.write(words)
                });
            }
            Documented::GlobalVariable(variable) => {
                self.item(sys::NAGA_CHECK_OP_COMMENT_ON_GLOBAL_VARIABLE, |words| {
                    variable.write(words)
                });
            }
        }
    }

    /// The words of the module.
    ///
    /// # Errors
    ///
    /// What has no words, such as a block within 127 others. A module that breaks a rule has words: the validator
    /// reports it.
    pub fn finish(mut self) -> Result<Vec<u32>, BuildError> {
        // Items may be in any order, so those that a module has once can come last.
        let settings = self.settings.clone();
        if let Some(flags) = settings.flags {
            self.item(sys::NAGA_CHECK_OP_FLAGS, |words| flags.bits().write(words));
        }
        if let Some(capabilities) = settings.capabilities {
            let (low, high) = halves(capabilities.bits());
            self.item(sys::NAGA_CHECK_OP_CAPABILITIES, |words| {
                words.extend([low, high])
            });
        }
        if settings.are_overrides_resolved {
            self.item(sys::NAGA_CHECK_OP_RESOLVED, |_| ());
        }
        if let Some(types) = settings.special_types {
            self.item(sys::NAGA_CHECK_OP_SPECIAL_TYPES, |words| {
                [
                    types.ray_desc,
                    types.ray_intersection,
                    types.ray_vertex_return,
                ]
                .write(words);
            });
        }
        if let Some(leaf) = settings.diagnostic_filter_leaf {
            self.item(sys::NAGA_CHECK_OP_FILTER_LEAF, |words| leaf.write(words));
        }
        match self.error {
            None => Ok(self.words),
            Some(error) => Err(error),
        }
    }

    /// Notes the first error.
    fn fail(&mut self, error: BuildError) {
        self.error.get_or_insert(error);
    }

    /// The handle of an index, if there is one.
    fn handle_of<T>(&mut self, index: Option<u32>) -> Handle<T> {
        index.map_or_else(
            || {
                self.fail(BuildError::TooManyItems);
                Handle::new(0)
            },
            Handle::new,
        )
    }

    /// Adds an item, whose operands a closure writes.
    fn item(&mut self, opcode: u32, write: impl FnOnce(&mut Vec<u32>)) {
        let head = self.words.len();
        self.words.push(opcode);
        write(&mut self.words);
        match u32::try_from(self.words.len() - head - 1) {
            Ok(count) if count <= sys::NAGA_CHECK_MOST_OPERANDS => {
                self.words[head] = count << 8 | opcode
            }
            _ => self.fail(BuildError::ItemTooLong),
        }
    }

    /// Adds an expression, of the module or of a function.
    fn expression(&mut self, opcode: u32, expression: &Expression) {
        self.item(opcode + expression.number(), |words| {
            expression.write(words)
        });
    }

    /// Adds the parts that only an entry point has.
    fn entry_parts(&mut self, entry_point: &EntryPoint) {
        let stage = EntryStage(entry_point.stage, entry_point.early_depth_test);
        if stage.is_said() {
            self.item(sys::NAGA_CHECK_OP_STAGE, |words| stage.write(words));
        }
        if entry_point.workgroup_size != [0; 3] {
            self.item(sys::NAGA_CHECK_OP_WORKGROUP_SIZE, |words| {
                entry_point.workgroup_size.write(words)
            });
        }
        if let Some(sizes) = &entry_point.workgroup_size_overrides {
            self.item(sys::NAGA_CHECK_OP_WORKGROUP_SIZES, |words| {
                sizes.write(words)
            });
        }
        if let Some(payload) = entry_point.task_payload {
            self.item(sys::NAGA_CHECK_OP_TASK_PAYLOAD, |words| {
                payload.write(words)
            });
        }
        if let Some(mesh) = &entry_point.mesh_info {
            self.mesh_output(mesh);
        }
    }

    /// Adds the output of a mesh shader. Points without greatest numbers need no words.
    fn mesh_output(&mut self, mesh: &MeshStageInfo) {
        self.item(sys::NAGA_CHECK_OP_MESH_OUTPUT, |words| {
            mesh.output_variable.write(words);
            mesh.vertex_output_type.write(words);
            mesh.primitive_output_type.write(words);
            mesh.max_vertices_override.write(words);
            mesh.max_primitives_override.write(words);
            let most = [mesh.max_vertices, mesh.max_primitives];
            if mesh.topology != MeshOutputTopology::Points || most != [0; 2] {
                mesh.topology.write(words);
                most.write(words);
            }
        });
    }

    /// Adds the parts of a function.
    fn parts(&mut self, function: &Function) {
        for argument in &function.arguments {
            self.argument(argument);
        }
        for variable in &function.local_variables {
            self.local_variable(variable);
        }
        if let Some(result) = &function.result {
            self.item(sys::NAGA_CHECK_OP_RESULT, |words| {
                result.ty.write(words);
                OptionalBinding(result.binding).write(words);
            });
        }
        for expression in &function.expressions {
            self.expression(sys::NAGA_CHECK_OP_EXPRESSION, expression);
        }
        for (expression, name) in &function.named_expressions {
            self.item(sys::NAGA_CHECK_OP_NAMED_EXPRESSION, |words| {
                name.write(words);
                expression.write(words);
            });
        }
        if let Some(leaf) = function.diagnostic_filter_leaf {
            self.item(sys::NAGA_CHECK_OP_FUNCTION_FILTER_LEAF, |words| {
                leaf.write(words)
            });
        }
        self.statements(&function.body, 0);
    }

    fn argument(&mut self, argument: &FunctionArgument) {
        self.item(sys::NAGA_CHECK_OP_ARGUMENT, |words| {
            argument.name.write(words);
            argument.ty.write(words);
            OptionalBinding(argument.binding).write(words);
        });
    }

    fn local_variable(&mut self, variable: &LocalVariable) {
        self.item(sys::NAGA_CHECK_OP_LOCAL_VARIABLE, |words| {
            variable.name.write(words);
            variable.ty.write(words);
            variable.init.write(words);
        });
    }

    /// Adds the statements of a block within `open` blocks.
    fn statements(&mut self, block: &Block, open: u32) {
        for statement in block {
            self.item(statement.number(), |words| statement.write(words));
            self.blocks(statement, open);
        }
    }

    /// Adds the blocks of a statement, and the items between and after them.
    fn blocks(&mut self, statement: &Statement, open: u32) {
        match statement {
            Statement::Block(block) => {
                self.nested(block, open);
                self.item(sys::NAGA_CHECK_STATEMENT_END, |_| ());
            }
            Statement::If { accept, reject, .. } => {
                self.nested(accept, open);
                self.item(sys::NAGA_CHECK_STATEMENT_ELSE, |_| ());
                self.nested(reject, open);
                self.item(sys::NAGA_CHECK_STATEMENT_END, |_| ());
            }
            Statement::Switch { cases, .. } => self.cases(cases, open),
            Statement::Loop {
                body,
                continuing,
                break_if,
            } => {
                self.nested(body, open);
                self.item(sys::NAGA_CHECK_STATEMENT_CONTINUING, |_| ());
                self.nested(continuing, open);
                self.item(sys::NAGA_CHECK_STATEMENT_END_LOOP, |words| {
                    break_if.write(words)
                });
            }
            _ => (),
        }
    }

    /// Adds the cases of a `switch`, and its end.
    fn cases(&mut self, cases: &[SwitchCase], open: u32) {
        // A switch without cases counts as a block too.
        self.check_depth(open);
        for case in cases {
            self.item(sys::NAGA_CHECK_STATEMENT_CASE, |words| {
                case.fall_through.write(words);
                OptionalSwitchValue(case.value).write(words);
            });
            self.nested(&case.body, open);
        }
        self.item(sys::NAGA_CHECK_STATEMENT_END, |_| ());
    }

    /// Adds the statements of a block within `open` blocks. A block that is nested too deep is left out, so the
    /// stack stays bounded.
    fn nested(&mut self, block: &Block, open: u32) {
        if self.check_depth(open) {
            self.statements(block, open + 1);
        }
    }

    /// Whether a block may be open within `open` others. If not, that is the error.
    fn check_depth(&mut self, open: u32) -> bool {
        if open >= MOST_OPEN_BLOCKS {
            self.fail(BuildError::BlocksTooDeep);
        }
        open < MOST_OPEN_BLOCKS
    }
}

/// The index of the next item of a kind, if there may be one more.
fn next(count: &mut u32) -> Option<u32> {
    let index = *count;
    *count = count.checked_add(1)?;
    Some(index)
}
