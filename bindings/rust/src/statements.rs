//! Statements, as in naga.

use crate::expressions::Expression;
use crate::module::Function;
use crate::operands::{builders, items, sums_of_bits, words_of_values, Handle, Operand};
use crate::sys;
use std::ops::Range;

/// Statements that are executed in order.
pub type Block = Vec<Statement>;

/// The value of a selector at which a case of a `switch` is executed.
#[derive(Clone, Copy, Debug, PartialEq, Eq, Hash)]
#[non_exhaustive]
pub enum SwitchValue {
    /// An `i32`.
    I32(i32),
    /// A `u32`.
    U32(u32),
    /// Each value that no other case has.
    Default,
}

/// The two words of a value of a case; if it isn't said there are none.
pub(crate) struct OptionalSwitchValue(pub(crate) Option<SwitchValue>);

impl Operand for OptionalSwitchValue {
    fn write(&self, words: &mut Vec<u32>) {
        let Some(value) = self.0 else { return };
        words.extend(match value {
            SwitchValue::Default => [sys::NAGA_CHECK_SWITCH_VALUE_DEFAULT, 0],
            SwitchValue::I32(value) => [sys::NAGA_CHECK_SWITCH_VALUE_I32, value.cast_unsigned()],
            SwitchValue::U32(value) => [sys::NAGA_CHECK_SWITCH_VALUE_U32, value],
        });
    }
}

/// A case of a `switch`.
#[derive(Clone, Debug, Default, PartialEq, Eq)]
#[non_exhaustive]
pub struct SwitchCase {
    /// When it is executed, if that is said.
    pub value: Option<SwitchValue>,
    /// What is executed.
    pub body: Block,
    /// Whether the next case is executed after this one.
    pub fall_through: bool,
}

impl SwitchCase {
    /// A case without a value, after which the next one is not executed.
    #[must_use]
    pub const fn new(body: Block) -> SwitchCase {
        SwitchCase {
            value: None,
            body,
            fall_through: false,
        }
    }

    /// The same case, after which the next one is executed.
    #[must_use]
    pub fn falling_through(mut self) -> SwitchCase {
        self.fall_through = true;
        self
    }
}

builders! {
    SwitchCase {
        /// Sets when it is executed.
        with_value(value: SwitchValue),
    }
}

/// What an atomic operation does.
#[derive(Clone, Copy, Debug, PartialEq, Eq, Hash)]
#[non_exhaustive]
pub enum AtomicFunction {
    /// Adds the value.
    Add,
    /// Subtracts the value.
    Subtract,
    /// Keeps the bits that both have.
    And,
    /// Keeps the bits that one has.
    ExclusiveOr,
    /// Keeps the bits that any has.
    InclusiveOr,
    /// Keeps the lesser.
    Min,
    /// Keeps the greater.
    Max,
    /// Replaces the value.
    Exchange {
        /// Only if it equals this one.
        compare: Option<Handle<Expression>>,
    },
}

impl Operand for AtomicFunction {
    fn write(&self, words: &mut Vec<u32>) {
        let number = match self {
            AtomicFunction::Add => sys::NAGA_CHECK_ATOMIC_ADD,
            AtomicFunction::Subtract => sys::NAGA_CHECK_ATOMIC_SUBTRACT,
            AtomicFunction::And => sys::NAGA_CHECK_ATOMIC_AND,
            AtomicFunction::ExclusiveOr => sys::NAGA_CHECK_ATOMIC_EXCLUSIVE_OR,
            AtomicFunction::InclusiveOr => sys::NAGA_CHECK_ATOMIC_INCLUSIVE_OR,
            AtomicFunction::Min => sys::NAGA_CHECK_ATOMIC_MIN,
            AtomicFunction::Max => sys::NAGA_CHECK_ATOMIC_MAX,
            AtomicFunction::Exchange { .. } => sys::NAGA_CHECK_ATOMIC_EXCHANGE,
        };
        words.push(number);
        match self {
            AtomicFunction::Exchange { compare } => compare.write(words),
            _ => words.push(0),
        }
    }
}

/// A step of a ray query.
#[derive(Clone, Copy, Debug, PartialEq, Eq, Hash)]
#[non_exhaustive]
pub enum RayQueryFunction {
    /// Begins it.
    Initialize {
        /// What the ray is traced through.
        acceleration_structure: Handle<Expression>,
        /// The ray: where it begins and where it goes.
        descriptor: Handle<Expression>,
    },
    /// Proceeds to the next candidate.
    Proceed {
        /// Whether there was one.
        result: Handle<Expression>,
    },
    /// Commits a generated hit.
    GenerateIntersection {
        /// The distance of the hit.
        hit_t: Handle<Expression>,
    },
    /// Commits the candidate.
    ConfirmIntersection,
    /// Ends it.
    Terminate,
}

impl Operand for RayQueryFunction {
    fn write(&self, words: &mut Vec<u32>) {
        words.extend(match self {
            RayQueryFunction::Initialize {
                acceleration_structure,
                descriptor,
            } => [
                sys::NAGA_CHECK_RAY_STEP_INITIALIZE,
                acceleration_structure.index(),
                descriptor.index(),
            ],
            RayQueryFunction::Proceed { result } => {
                [sys::NAGA_CHECK_RAY_STEP_PROCEED, result.index(), 0]
            }
            RayQueryFunction::GenerateIntersection { hit_t } => [
                sys::NAGA_CHECK_RAY_STEP_GENERATE_INTERSECTION,
                hit_t.index(),
                0,
            ],
            RayQueryFunction::ConfirmIntersection => {
                [sys::NAGA_CHECK_RAY_STEP_CONFIRM_INTERSECTION, 0, 0]
            }
            RayQueryFunction::Terminate => [sys::NAGA_CHECK_RAY_STEP_TERMINATE, 0, 0],
        });
    }
}

/// From which invocation of a subgroup a value is taken.
#[derive(Clone, Copy, Debug, PartialEq, Eq, Hash)]
#[non_exhaustive]
pub enum GatherMode {
    /// The first.
    BroadcastFirst,
    /// The one of this number.
    Broadcast(Handle<Expression>),
    /// For each, the one of this number.
    Shuffle(Handle<Expression>),
    /// For each, the one whose number is greater by this.
    ShuffleDown(Handle<Expression>),
    /// For each, the one whose number is less by this.
    ShuffleUp(Handle<Expression>),
    /// For each, the one whose number differs in these bits.
    ShuffleXor(Handle<Expression>),
    /// The one of this number in the quad.
    QuadBroadcast(Handle<Expression>),
    /// Another one of the quad.
    QuadSwap,
}

impl Operand for GatherMode {
    fn write(&self, words: &mut Vec<u32>) {
        words.extend(match self {
            GatherMode::BroadcastFirst => [sys::NAGA_CHECK_GATHER_BROADCAST_FIRST, 0],
            GatherMode::Broadcast(at) => [sys::NAGA_CHECK_GATHER_BROADCAST, at.index()],
            GatherMode::Shuffle(at) => [sys::NAGA_CHECK_GATHER_SHUFFLE, at.index()],
            GatherMode::ShuffleDown(by) => [sys::NAGA_CHECK_GATHER_SHUFFLE_DOWN, by.index()],
            GatherMode::ShuffleUp(by) => [sys::NAGA_CHECK_GATHER_SHUFFLE_UP, by.index()],
            GatherMode::ShuffleXor(by) => [sys::NAGA_CHECK_GATHER_SHUFFLE_XOR, by.index()],
            GatherMode::QuadBroadcast(at) => [sys::NAGA_CHECK_GATHER_QUAD_BROADCAST, at.index()],
            GatherMode::QuadSwap => [sys::NAGA_CHECK_GATHER_QUAD_SWAP, 0],
        });
    }
}

/// What a subgroup makes of the values of its invocations.
#[derive(Clone, Copy, Debug, PartialEq, Eq, Hash)]
#[non_exhaustive]
#[repr(u32)]
pub enum SubgroupOperation {
    /// Whether all are true.
    All = sys::NAGA_CHECK_SUBGROUP_ALL,
    /// Whether any is true.
    Any = sys::NAGA_CHECK_SUBGROUP_ANY,
    /// The sum.
    Add = sys::NAGA_CHECK_SUBGROUP_ADD,
    /// The product.
    Mul = sys::NAGA_CHECK_SUBGROUP_MUL,
    /// The least.
    Min = sys::NAGA_CHECK_SUBGROUP_MIN,
    /// The greatest.
    Max = sys::NAGA_CHECK_SUBGROUP_MAX,
    /// The bits that all have.
    And = sys::NAGA_CHECK_SUBGROUP_AND,
    /// The bits that any has.
    Or = sys::NAGA_CHECK_SUBGROUP_OR,
    /// The bits that an odd number of them has.
    Xor = sys::NAGA_CHECK_SUBGROUP_XOR,
}

words_of_values!(SubgroupOperation);

/// For which invocations a subgroup makes one value of many.
#[derive(Clone, Copy, Debug, PartialEq, Eq, Hash)]
#[non_exhaustive]
#[repr(u32)]
pub enum CollectiveOperation {
    /// Of all invocations, for each of them.
    Reduce = sys::NAGA_CHECK_COLLECTIVE_REDUCE,
    /// For each invocation, of those up to it and of its own.
    InclusiveScan = sys::NAGA_CHECK_COLLECTIVE_INCLUSIVE_SCAN,
    /// For each invocation, of those before it.
    ExclusiveScan = sys::NAGA_CHECK_COLLECTIVE_EXCLUSIVE_SCAN,
}

/// One word, and none for a reduction.
impl Operand for CollectiveOperation {
    fn write(&self, words: &mut Vec<u32>) {
        if *self != CollectiveOperation::Reduce {
            words.push(*self as u32);
        }
    }
}

/// The memory whose accesses a barrier orders: naga's `Barrier`. By default it is none.
///
/// ```
/// use naga_check::{Barrier, Statement};
///
/// let both = Barrier::STORAGE | Barrier::WORK_GROUP;
/// assert!(both.storage && both.work_group && !both.texture);
/// assert_ne!(Statement::ControlBarrier(both), Statement::ControlBarrier(Barrier::WORK_GROUP));
/// ```
#[derive(Clone, Copy, Debug, Default, PartialEq, Eq, Hash)]
#[non_exhaustive]
pub struct Barrier {
    /// Buffers.
    pub storage: bool,
    /// Variables of the workgroup.
    pub work_group: bool,
    /// What the invocations of a subgroup share.
    pub sub_group: bool,
    /// Storage images.
    pub texture: bool,
}

impl Barrier {
    /// No memory.
    const EMPTY: Barrier = Barrier {
        storage: false,
        work_group: false,
        sub_group: false,
        texture: false,
    };
    /// Buffers.
    pub const STORAGE: Barrier = Barrier {
        storage: true,
        ..Barrier::EMPTY
    };
    /// Variables of the workgroup.
    pub const WORK_GROUP: Barrier = Barrier {
        work_group: true,
        ..Barrier::EMPTY
    };
    /// What the invocations of a subgroup share.
    pub const SUB_GROUP: Barrier = Barrier {
        sub_group: true,
        ..Barrier::EMPTY
    };
    /// Storage images.
    pub const TEXTURE: Barrier = Barrier {
        texture: true,
        ..Barrier::EMPTY
    };
}

sums_of_bits! {
    Barrier {
        storage = sys::NAGA_CHECK_BARRIER_STORAGE,
        work_group = sys::NAGA_CHECK_BARRIER_WORK_GROUP,
        sub_group = sys::NAGA_CHECK_BARRIER_SUB_GROUP,
        texture = sys::NAGA_CHECK_BARRIER_TEXTURE,
    }
}

/// One word, and none for the variables of the workgroup alone.
impl Operand for Barrier {
    fn write(&self, words: &mut Vec<u32>) {
        if *self != Barrier::WORK_GROUP {
            words.push(self.word());
        }
    }
}

impl Operand for Range<u32> {
    fn write(&self, words: &mut Vec<u32>) {
        words.extend([self.start, self.end]);
    }
}

items! {
    /// A statement.
    #[derive(Clone, Debug, PartialEq, Eq)]
    #[non_exhaustive]
    pub enum Statement {
        /// Evaluates the expressions from the first index on, up to but not the second.
        Emit(range: Range<u32>) = sys::NAGA_CHECK_STATEMENT_EMIT [range],
        /// A block of its own.
        Block(block: Block) = sys::NAGA_CHECK_STATEMENT_BLOCK [],
        /// One of two blocks, by a condition.
        If {
            /// The condition.
            condition: Handle<Expression>,
            /// What is executed if it is true.
            accept: Block,
            /// What is executed if it is false.
            reject: Block,
        } = sys::NAGA_CHECK_STATEMENT_IF [condition],
        /// One of several blocks, by a number.
        Switch {
            /// The number.
            selector: Handle<Expression>,
            /// The blocks.
            cases: Vec<SwitchCase>,
        } = sys::NAGA_CHECK_STATEMENT_SWITCH [selector],
        /// Two blocks again and again, until a `Break` or until `break_if` is true after them.
        Loop {
            /// What is executed first.
            body: Block,
            /// What is executed after it.
            continuing: Block,
            /// The condition that ends the loop.
            break_if: Option<Handle<Expression>>,
        } = sys::NAGA_CHECK_STATEMENT_LOOP [],
        /// Leaves the innermost loop or switch.
        Break = sys::NAGA_CHECK_STATEMENT_BREAK [],
        /// Goes to the `continuing` block of the innermost loop.
        Continue = sys::NAGA_CHECK_STATEMENT_CONTINUE [],
        /// Leaves the function.
        Return {
            /// What it returns.
            value: Option<Handle<Expression>>,
        } = sys::NAGA_CHECK_STATEMENT_RETURN [value],
        /// Ends the invocation of a fragment.
        Kill = sys::NAGA_CHECK_STATEMENT_KILL [],
        /// Waits for the other invocations, and orders accesses to memory.
        ControlBarrier(barrier: Barrier) = sys::NAGA_CHECK_STATEMENT_CONTROL_BARRIER [barrier],
        /// Orders accesses to memory.
        MemoryBarrier(barrier: Barrier) = sys::NAGA_CHECK_STATEMENT_MEMORY_BARRIER [barrier],
        /// Writes a value to what a pointer points to.
        Store {
            /// The pointer.
            pointer: Handle<Expression>,
            /// The value.
            value: Handle<Expression>,
        } = sys::NAGA_CHECK_STATEMENT_STORE [pointer, value],
        /// Writes a texel of an image.
        ImageStore {
            /// The image.
            image: Handle<Expression>,
            /// Where in the image.
            coordinate: Handle<Expression>,
            /// The layer, of an arrayed image.
            array_index: Option<Handle<Expression>>,
            /// The value of the texel.
            value: Handle<Expression>,
        } = sys::NAGA_CHECK_STATEMENT_IMAGE_STORE [image, coordinate, array_index, value],
        /// An atomic operation on what a pointer points to.
        Atomic {
            /// The pointer.
            pointer: Handle<Expression>,
            /// The operation.
            fun: AtomicFunction,
            /// Its operand.
            value: Handle<Expression>,
            /// What was there before, if it is used.
            result: Option<Handle<Expression>>,
        } = sys::NAGA_CHECK_STATEMENT_ATOMIC [pointer, fun, value, result],
        /// An atomic operation on a texel.
        ImageAtomic {
            /// The image.
            image: Handle<Expression>,
            /// Where in the image.
            coordinate: Handle<Expression>,
            /// The layer, of an arrayed image.
            array_index: Option<Handle<Expression>>,
            /// The operation.
            fun: AtomicFunction,
            /// Its operand.
            value: Handle<Expression>,
        } = sys::NAGA_CHECK_STATEMENT_IMAGE_ATOMIC [image, coordinate, array_index, fun, value],
        /// Loads one value for the whole workgroup.
        WorkGroupUniformLoad {
            /// A pointer to the value.
            pointer: Handle<Expression>,
            /// The value.
            result: Handle<Expression>,
        } = sys::NAGA_CHECK_STATEMENT_WORKGROUP_UNIFORM_LOAD [pointer, result],
        /// Calls a function.
        Call {
            /// The function.
            function: Handle<Function>,
            /// Its arguments.
            arguments: Vec<Handle<Expression>>,
            /// What the function returns, if it returns something.
            result: Option<Handle<Expression>>,
        } = sys::NAGA_CHECK_STATEMENT_CALL [function, result, arguments],
        /// A step of a ray query.
        RayQuery {
            /// A pointer to the query.
            query: Handle<Expression>,
            /// The step.
            fun: RayQueryFunction,
        } = sys::NAGA_CHECK_STATEMENT_RAY_QUERY [query, fun],
        /// Traces a ray: naga's `RayPipelineFunction(TraceRay { .. })`.
        TraceRay {
            /// What the ray is traced through.
            acceleration_structure: Handle<Expression>,
            /// The ray: where it begins and where it goes.
            descriptor: Handle<Expression>,
            /// A pointer to what the stages of the trace share.
            payload: Handle<Expression>,
        } = sys::NAGA_CHECK_STATEMENT_TRACE_RAY [acceleration_structure, descriptor, payload],
        /// Collects a bool from all invocations of the subgroup.
        SubgroupBallot {
            /// The collection.
            result: Handle<Expression>,
            /// The bool; without it, each invocation takes part with true.
            predicate: Option<Handle<Expression>>,
        } = sys::NAGA_CHECK_STATEMENT_SUBGROUP_BALLOT [result, predicate],
        /// Takes values of other invocations of the subgroup.
        SubgroupGather {
            /// Of which invocations.
            mode: GatherMode,
            /// The value that an invocation gives.
            argument: Handle<Expression>,
            /// The value that it takes.
            result: Handle<Expression>,
        } = sys::NAGA_CHECK_STATEMENT_SUBGROUP_GATHER [mode, argument, result],
        /// Makes one value of the values of the subgroup.
        SubgroupCollectiveOperation {
            /// What is made of them.
            op: SubgroupOperation,
            /// For which invocations.
            collective_op: CollectiveOperation,
            /// The value that an invocation gives.
            argument: Handle<Expression>,
            /// The value that is made.
            result: Handle<Expression>,
        } = sys::NAGA_CHECK_STATEMENT_SUBGROUP_OPERATION [op, argument, result, collective_op],
        /// Writes a cooperative matrix to memory.
        CooperativeStore {
            /// The matrix.
            target: Handle<Expression>,
            /// A pointer to where its first component goes.
            pointer: Handle<Expression>,
            /// From the start of a column or row to the start of the next, in elements.
            stride: Handle<Expression>,
        } = sys::NAGA_CHECK_STATEMENT_COOPERATIVE_STORE [target, pointer, stride],
    }
}
