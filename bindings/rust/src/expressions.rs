//! Expressions, as in naga.

use crate::module::{Constant, Function, GlobalVariable, LocalVariable, Override};
use crate::operands::{items, words_of_values, Handle, Operand};
use crate::operators::{BinaryOperator, MathFunction, RelationalFunction, UnaryOperator};
use crate::sys;
use crate::types::{CooperativeRole, CooperativeSize, ScalarKind, Type, VectorSize};

/// A literal. Floating-point numbers are given as their bits, as by `f32::to_bits`.
#[derive(Clone, Copy, Debug, PartialEq, Eq, Hash)]
#[non_exhaustive]
pub enum Literal {
    /// The bits of an `f64`.
    F64(u64),
    /// The bits of an `f32`.
    F32(u32),
    /// The bits of an `f16`.
    F16(u16),
    /// A `u16`.
    U16(u16),
    /// An `i16`.
    I16(i16),
    /// A `u32`.
    U32(u32),
    /// An `i32`.
    I32(i32),
    /// A `u64`.
    U64(u64),
    /// An `i64`.
    I64(i64),
    /// A bool.
    Bool(bool),
    /// An abstract integer.
    AbstractInt(i64),
    /// The bits of an abstract floating-point number.
    AbstractFloat(u64),
}

impl Literal {
    /// Its number among literals, and its bits.
    fn number_and_bits(self) -> (u32, u64) {
        match self {
            Literal::F64(bits) => (sys::NAGA_CHECK_LITERAL_F64, bits),
            Literal::F32(bits) => (sys::NAGA_CHECK_LITERAL_F32, bits.into()),
            Literal::F16(bits) => (sys::NAGA_CHECK_LITERAL_F16, bits.into()),
            Literal::U16(value) => (sys::NAGA_CHECK_LITERAL_U16, value.into()),
            Literal::I16(value) => (sys::NAGA_CHECK_LITERAL_I16, value.cast_unsigned().into()),
            Literal::U32(value) => (sys::NAGA_CHECK_LITERAL_U32, value.into()),
            Literal::I32(value) => (sys::NAGA_CHECK_LITERAL_I32, value.cast_unsigned().into()),
            Literal::U64(value) => (sys::NAGA_CHECK_LITERAL_U64, value),
            Literal::I64(value) => (sys::NAGA_CHECK_LITERAL_I64, value.cast_unsigned()),
            Literal::Bool(value) => (sys::NAGA_CHECK_LITERAL_BOOL, value.into()),
            Literal::AbstractInt(value) => {
                (sys::NAGA_CHECK_LITERAL_ABSTRACT_INT, value.cast_unsigned())
            }
            Literal::AbstractFloat(bits) => (sys::NAGA_CHECK_LITERAL_ABSTRACT_FLOAT, bits),
        }
    }
}

impl Operand for Literal {
    fn write(&self, words: &mut Vec<u32>) {
        let (number, bits) = self.number_and_bits();
        let (low, high) = halves(bits);
        words.extend([number, low, high]);
    }
}

/// The low and the high word of 64 bits.
pub(crate) fn halves(bits: u64) -> (u32, u32) {
    // The first drops the high bits on purpose.
    (bits as u32, (bits >> 32) as u32)
}

/// A component of a vector.
#[derive(Clone, Copy, Debug, PartialEq, Eq, Hash)]
#[repr(u32)]
pub enum SwizzleComponent {
    /// The first.
    X = sys::NAGA_CHECK_COMPONENT_X,
    /// The second.
    Y = sys::NAGA_CHECK_COMPONENT_Y,
    /// The third.
    Z = sys::NAGA_CHECK_COMPONENT_Z,
    /// The fourth.
    W = sys::NAGA_CHECK_COMPONENT_W,
}

words_of_values!(SwizzleComponent);

/// Which mipmap level of an image is sampled.
#[derive(Clone, Copy, Debug, PartialEq, Eq, Hash)]
#[non_exhaustive]
pub enum SampleLevel {
    /// By the derivatives of the coordinates.
    Auto,
    /// The first.
    Zero,
    /// The one of this number.
    Exact(Handle<Expression>),
    /// By the derivatives, and this many levels on.
    Bias(Handle<Expression>),
    /// By these derivatives.
    Gradient {
        /// Of the coordinates in the direction of x.
        x: Handle<Expression>,
        /// Of the coordinates in the direction of y.
        y: Handle<Expression>,
    },
}

impl Operand for SampleLevel {
    fn write(&self, words: &mut Vec<u32>) {
        words.extend(match self {
            SampleLevel::Auto => [sys::NAGA_CHECK_LEVEL_AUTO, 0, 0],
            SampleLevel::Zero => [sys::NAGA_CHECK_LEVEL_ZERO, 0, 0],
            SampleLevel::Exact(level) => [sys::NAGA_CHECK_LEVEL_EXACT, level.index(), 0],
            SampleLevel::Bias(bias) => [sys::NAGA_CHECK_LEVEL_BIAS, bias.index(), 0],
            SampleLevel::Gradient { x, y } => {
                [sys::NAGA_CHECK_LEVEL_GRADIENT, x.index(), y.index()]
            }
        });
    }
}

/// A query of an image.
#[derive(Clone, Copy, Debug, PartialEq, Eq, Hash)]
#[non_exhaustive]
pub enum ImageQuery {
    /// Its size in texels.
    Size {
        /// Of this level, or else of the first.
        level: Option<Handle<Expression>>,
    },
    /// The number of its levels.
    NumLevels,
    /// The number of its layers.
    NumLayers,
    /// The number of samples of a texel.
    NumSamples,
}

impl Operand for ImageQuery {
    fn write(&self, words: &mut Vec<u32>) {
        match self {
            ImageQuery::Size { level } => {
                words.push(sys::NAGA_CHECK_QUERY_SIZE);
                level.write(words);
            }
            ImageQuery::NumLevels => words.extend([sys::NAGA_CHECK_QUERY_LEVELS, 0]),
            ImageQuery::NumLayers => words.extend([sys::NAGA_CHECK_QUERY_LAYERS, 0]),
            ImageQuery::NumSamples => words.extend([sys::NAGA_CHECK_QUERY_SAMPLES, 0]),
        }
    }
}

/// The columns, the rows and the role of a cooperative matrix.
#[derive(Clone, Copy, Debug, PartialEq, Eq, Hash)]
#[non_exhaustive]
pub struct CooperativeShape {
    /// The number of columns.
    pub columns: CooperativeSize,
    /// The number of rows.
    pub rows: CooperativeSize,
    /// Which operand of a multiplication it may be.
    pub role: CooperativeRole,
}

impl CooperativeShape {
    /// The shape of so many columns and rows, in this role.
    #[must_use]
    pub const fn new(
        columns: CooperativeSize,
        rows: CooperativeSize,
        role: CooperativeRole,
    ) -> CooperativeShape {
        CooperativeShape {
            columns,
            rows,
            role,
        }
    }
}

/// The three words of the shape of a cooperative matrix; if it isn't said there are none.
struct OptionalShape(Option<CooperativeShape>);

impl Operand for OptionalShape {
    fn write(&self, words: &mut Vec<u32>) {
        let Some(shape) = self.0 else { return };
        words.extend([shape.columns as u32, shape.rows as u32, shape.role as u32]);
    }
}

items! {
    /// A value that is computed from the values of preceding expressions.
    #[derive(Clone, Debug, PartialEq, Eq, Hash)]
    #[non_exhaustive]
    pub enum Expression {
        /// A literal.
        Literal(literal: Literal) = sys::NAGA_CHECK_FORM_LITERAL [literal],
        /// The value of a constant.
        Constant(constant: Handle<Constant>) = sys::NAGA_CHECK_FORM_CONSTANT [constant],
        /// The value of an override.
        Override(by: Handle<Override>) = sys::NAGA_CHECK_FORM_OVERRIDE [by],
        /// The zero of a type.
        ZeroValue(ty: Handle<Type>) = sys::NAGA_CHECK_FORM_ZERO_VALUE [ty],
        /// A value from its components.
        Compose {
            /// The type of the value.
            ty: Handle<Type>,
            /// The components.
            components: Vec<Handle<Expression>>,
        } = sys::NAGA_CHECK_FORM_COMPOSE [ty, components],
        /// A component, element or member, at an index that is computed.
        Access {
            /// What has it.
            base: Handle<Expression>,
            /// The index, from 0.
            index: Handle<Expression>,
        } = sys::NAGA_CHECK_FORM_ACCESS [base, index],
        /// A component, element or member, at a known index.
        AccessIndex {
            /// What has it.
            base: Handle<Expression>,
            /// The index, from 0.
            index: u32,
        } = sys::NAGA_CHECK_FORM_ACCESS_INDEX [base, index],
        /// A vector of which all components are one value.
        Splat {
            /// The number of components.
            size: VectorSize,
            /// The value.
            value: Handle<Expression>,
        } = sys::NAGA_CHECK_FORM_SPLAT [size, value],
        /// A vector from components of another.
        Swizzle {
            /// The number of components.
            size: VectorSize,
            /// The other vector.
            vector: Handle<Expression>,
            /// The component of each index, of which the first `size` count.
            pattern: [SwizzleComponent; 4],
        } = sys::NAGA_CHECK_FORM_SWIZZLE [size, vector, pattern],
        /// The argument of this number.
        FunctionArgument(index: u32) = sys::NAGA_CHECK_FORM_FUNCTION_ARGUMENT [index],
        /// A pointer to a variable of the module; in the address space `Handle` the image or sampler itself.
        GlobalVariable(variable: Handle<GlobalVariable>) = sys::NAGA_CHECK_FORM_GLOBAL_VARIABLE [variable],
        /// A pointer to a variable of the function.
        LocalVariable(variable: Handle<LocalVariable>) = sys::NAGA_CHECK_FORM_LOCAL_VARIABLE [variable],
        /// The value that a pointer points to.
        Load {
            /// The pointer.
            pointer: Handle<Expression>,
        } = sys::NAGA_CHECK_FORM_LOAD [pointer],
        /// A sample of an image.
        ImageSample {
            /// The image.
            image: Handle<Expression>,
            /// The sampler.
            sampler: Handle<Expression>,
            /// The component that is gathered of four texels, of a gather.
            gather: Option<SwizzleComponent>,
            /// Where in the image.
            coordinate: Handle<Expression>,
            /// The layer, of an arrayed image.
            array_index: Option<Handle<Expression>>,
            /// From the coordinates to the sample, in texels.
            offset: Option<Handle<Expression>>,
            /// The mipmap level.
            level: SampleLevel,
            /// What depths are compared with.
            depth_ref: Option<Handle<Expression>>,
            /// Whether coordinates are clamped to within half a texel of the edges.
            clamp_to_edge: bool,
        } = sys::NAGA_CHECK_FORM_IMAGE_SAMPLE
            [image, sampler, gather, coordinate, array_index, offset, level, depth_ref, clamp_to_edge],
        /// A texel of an image.
        ImageLoad {
            /// The image.
            image: Handle<Expression>,
            /// Where in the image.
            coordinate: Handle<Expression>,
            /// The layer, of an arrayed image.
            array_index: Option<Handle<Expression>>,
            /// Which sample, of a multisampled image.
            sample: Option<Handle<Expression>>,
            /// The mipmap level.
            level: Option<Handle<Expression>>,
        } = sys::NAGA_CHECK_FORM_IMAGE_LOAD [image, coordinate, array_index, sample, level],
        /// A property of an image.
        ImageQuery {
            /// The image.
            image: Handle<Expression>,
            /// Which property.
            query: ImageQuery,
        } = sys::NAGA_CHECK_FORM_IMAGE_QUERY [image, query],
        /// An operator on one value.
        Unary {
            /// The operator.
            op: UnaryOperator,
            /// The value.
            expr: Handle<Expression>,
        } = sys::NAGA_CHECK_FORM_UNARY [op, expr],
        /// An operator on two values.
        Binary {
            /// The operator.
            op: BinaryOperator,
            /// The left value.
            left: Handle<Expression>,
            /// The right value.
            right: Handle<Expression>,
        } = sys::NAGA_CHECK_FORM_BINARY [op, left, right],
        /// One of two values, by a condition.
        Select {
            /// The condition.
            condition: Handle<Expression>,
            /// The value if it is true.
            accept: Handle<Expression>,
            /// The value if it is false.
            reject: Handle<Expression>,
        } = sys::NAGA_CHECK_FORM_SELECT [condition, accept, reject],
        /// The derivative of a value across fragments.
        Derivative {
            /// The value.
            expr: Handle<Expression>,
        } = sys::NAGA_CHECK_FORM_DERIVATIVE [expr],
        /// A query of a value.
        Relational {
            /// Which query.
            fun: RelationalFunction,
            /// The value.
            argument: Handle<Expression>,
        } = sys::NAGA_CHECK_FORM_RELATIONAL [fun, argument],
        /// A mathematical function.
        Math {
            /// The function.
            fun: MathFunction,
            /// Its first argument.
            arg: Handle<Expression>,
            /// Its second argument.
            arg1: Option<Handle<Expression>>,
            /// Its third argument.
            arg2: Option<Handle<Expression>>,
            /// Its fourth argument.
            arg3: Option<Handle<Expression>>,
        } = sys::NAGA_CHECK_FORM_MATH [fun, arg, arg1, arg2, arg3],
        /// A conversion to another scalar kind.
        As {
            /// The value.
            expr: Handle<Expression>,
            /// The kind that it is converted to.
            kind: ScalarKind,
            /// The width in bytes that it is converted to; without one, its bits are reinterpreted.
            convert: Option<u8>,
        } = sys::NAGA_CHECK_FORM_AS [expr, kind, convert.map(u32::from)],
        /// The result of a call of this function.
        CallResult(function: Handle<Function>) = sys::NAGA_CHECK_FORM_CALL_RESULT [function],
        /// The result of an atomic operation.
        AtomicResult {
            /// The type of the result.
            ty: Handle<Type>,
            /// Whether it was a compare-and-exchange.
            comparison: bool,
        } = sys::NAGA_CHECK_FORM_ATOMIC_RESULT [ty, comparison],
        /// The result of a load for the whole workgroup.
        WorkGroupUniformLoadResult {
            /// The type of the result.
            ty: Handle<Type>,
        } = sys::NAGA_CHECK_FORM_WORKGROUP_UNIFORM_LOAD_RESULT [ty],
        /// The number of elements of the runtime-sized array that a pointer points to.
        ArrayLength(pointer: Handle<Expression>) = sys::NAGA_CHECK_FORM_ARRAY_LENGTH [pointer],
        /// Whether a ray goes on.
        RayQueryProceedResult = sys::NAGA_CHECK_FORM_RAY_QUERY_PROCEED_RESULT [],
        /// What a ray has hit.
        RayQueryGetIntersection {
            /// A pointer to the query.
            query: Handle<Expression>,
            /// Whether it is the committed hit, and no candidate.
            committed: bool,
        } = sys::NAGA_CHECK_FORM_RAY_QUERY_GET_INTERSECTION [query, committed],
        /// The corners of what a ray has hit.
        RayQueryVertexPositions {
            /// A pointer to the query.
            query: Handle<Expression>,
            /// Whether it is the committed hit, and no candidate.
            committed: bool,
        } = sys::NAGA_CHECK_FORM_RAY_QUERY_VERTEX_POSITIONS [query, committed],
        /// The result of a ballot of the subgroup.
        SubgroupBallotResult = sys::NAGA_CHECK_FORM_SUBGROUP_BALLOT_RESULT [],
        /// The result of an operation of the subgroup.
        SubgroupOperationResult {
            /// The type of the result.
            ty: Handle<Type>,
        } = sys::NAGA_CHECK_FORM_SUBGROUP_OPERATION_RESULT [ty],
        /// A cooperative matrix from memory.
        CooperativeLoad {
            /// What the matrix is, if that is said: its type is not known without.
            shape: Option<CooperativeShape>,
            /// A pointer to its first component.
            pointer: Handle<Expression>,
            /// From the start of a column or row to the start of the next, in elements.
            stride: Handle<Expression>,
        } = sys::NAGA_CHECK_FORM_COOPERATIVE_LOAD [pointer, stride, OptionalShape(*shape)],
        /// `a * b + c` of cooperative matrices.
        CooperativeMultiplyAdd {
            /// The left factor.
            a: Handle<Expression>,
            /// The right factor.
            b: Handle<Expression>,
            /// The summand.
            c: Handle<Expression>,
        } = sys::NAGA_CHECK_FORM_COOPERATIVE_MULTIPLY_ADD [a, b, c],
    }
}
