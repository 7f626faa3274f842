//! Operators and functions of expressions, as in naga.

use crate::operands::words_of_values;
use crate::sys;

/// An operator on one value.
#[derive(Clone, Copy, Debug, PartialEq, Eq, Hash)]
#[non_exhaustive]
#[repr(u32)]
pub enum UnaryOperator {
    /// `-`.
    Negate = sys::NAGA_CHECK_UNARY_NEGATE,
    /// `!`.
    LogicalNot = sys::NAGA_CHECK_UNARY_LOGICAL_NOT,
    /// `~`.
    BitwiseNot = sys::NAGA_CHECK_UNARY_BITWISE_NOT,
}

/// An operator on two values.
#[derive(Clone, Copy, Debug, PartialEq, Eq, Hash)]
#[non_exhaustive]
#[repr(u32)]
pub enum BinaryOperator {
    /// `+`.
    Add = sys::NAGA_CHECK_BINARY_ADD,
    /// `-`.
    Subtract = sys::NAGA_CHECK_BINARY_SUBTRACT,
    /// `*`.
    Multiply = sys::NAGA_CHECK_BINARY_MULTIPLY,
    /// `/`.
    Divide = sys::NAGA_CHECK_BINARY_DIVIDE,
    /// `%`.
    Modulo = sys::NAGA_CHECK_BINARY_MODULO,
    /// `==`.
    Equal = sys::NAGA_CHECK_BINARY_EQUAL,
    /// `!=`.
    NotEqual = sys::NAGA_CHECK_BINARY_NOT_EQUAL,
    /// `<`.
    Less = sys::NAGA_CHECK_BINARY_LESS,
    /// `<=`.
    LessEqual = sys::NAGA_CHECK_BINARY_LESS_EQUAL,
    /// `>`.
    Greater = sys::NAGA_CHECK_BINARY_GREATER,
    /// `>=`.
    GreaterEqual = sys::NAGA_CHECK_BINARY_GREATER_EQUAL,
    /// `&`.
    And = sys::NAGA_CHECK_BINARY_AND,
    /// `^`.
    ExclusiveOr = sys::NAGA_CHECK_BINARY_EXCLUSIVE_OR,
    /// `|`.
    InclusiveOr = sys::NAGA_CHECK_BINARY_INCLUSIVE_OR,
    /// `&&`.
    LogicalAnd = sys::NAGA_CHECK_BINARY_LOGICAL_AND,
    /// `||`.
    LogicalOr = sys::NAGA_CHECK_BINARY_LOGICAL_OR,
    /// `<<`.
    ShiftLeft = sys::NAGA_CHECK_BINARY_SHIFT_LEFT,
    /// `>>`, which keeps the sign of signed integers.
    ShiftRight = sys::NAGA_CHECK_BINARY_SHIFT_RIGHT,
}

/// A query of a bool or number.
#[derive(Clone, Copy, Debug, PartialEq, Eq, Hash)]
#[non_exhaustive]
#[repr(u32)]
pub enum RelationalFunction {
    /// Whether all components are true.
    All = sys::NAGA_CHECK_RELATIONAL_ALL,
    /// Whether a component is true.
    Any = sys::NAGA_CHECK_RELATIONAL_ANY,
    /// Whether it is not a number.
    IsNan = sys::NAGA_CHECK_RELATIONAL_IS_NAN,
    /// Whether it is infinite.
    IsInf = sys::NAGA_CHECK_RELATIONAL_IS_INF,
}

/// A mathematical function, with its name in WGSL where that has it.
#[derive(Clone, Copy, Debug, PartialEq, Eq, Hash)]
#[non_exhaustive]
#[repr(u32)]
pub enum MathFunction {
    /// `abs`.
    Abs = sys::NAGA_CHECK_MATH_ABS,
    /// `min`.
    Min = sys::NAGA_CHECK_MATH_MIN,
    /// `max`.
    Max = sys::NAGA_CHECK_MATH_MAX,
    /// `clamp`.
    Clamp = sys::NAGA_CHECK_MATH_CLAMP,
    /// `saturate`.
    Saturate = sys::NAGA_CHECK_MATH_SATURATE,
    /// `cos`.
    Cos = sys::NAGA_CHECK_MATH_COS,
    /// `cosh`.
    Cosh = sys::NAGA_CHECK_MATH_COSH,
    /// `sin`.
    Sin = sys::NAGA_CHECK_MATH_SIN,
    /// `sinh`.
    Sinh = sys::NAGA_CHECK_MATH_SINH,
    /// `tan`.
    Tan = sys::NAGA_CHECK_MATH_TAN,
    /// `tanh`.
    Tanh = sys::NAGA_CHECK_MATH_TANH,
    /// `acos`.
    Acos = sys::NAGA_CHECK_MATH_ACOS,
    /// `asin`.
    Asin = sys::NAGA_CHECK_MATH_ASIN,
    /// `atan`.
    Atan = sys::NAGA_CHECK_MATH_ATAN,
    /// `atan2`.
    Atan2 = sys::NAGA_CHECK_MATH_ATAN2,
    /// `asinh`.
    Asinh = sys::NAGA_CHECK_MATH_ASINH,
    /// `acosh`.
    Acosh = sys::NAGA_CHECK_MATH_ACOSH,
    /// `atanh`.
    Atanh = sys::NAGA_CHECK_MATH_ATANH,
    /// `radians`.
    Radians = sys::NAGA_CHECK_MATH_RADIANS,
    /// `degrees`.
    Degrees = sys::NAGA_CHECK_MATH_DEGREES,
    /// `ceil`.
    Ceil = sys::NAGA_CHECK_MATH_CEIL,
    /// `floor`.
    Floor = sys::NAGA_CHECK_MATH_FLOOR,
    /// `round`.
    Round = sys::NAGA_CHECK_MATH_ROUND,
    /// `fract`.
    Fract = sys::NAGA_CHECK_MATH_FRACT,
    /// `trunc`.
    Trunc = sys::NAGA_CHECK_MATH_TRUNC,
    /// `exp`.
    Exp = sys::NAGA_CHECK_MATH_EXP,
    /// `exp2`.
    Exp2 = sys::NAGA_CHECK_MATH_EXP2,
    /// `log`.
    Log = sys::NAGA_CHECK_MATH_LOG,
    /// `log2`.
    Log2 = sys::NAGA_CHECK_MATH_LOG2,
    /// `pow`.
    Pow = sys::NAGA_CHECK_MATH_POW,
    /// `dot`.
    Dot = sys::NAGA_CHECK_MATH_DOT,
    /// `cross`.
    Cross = sys::NAGA_CHECK_MATH_CROSS,
    /// `distance`.
    Distance = sys::NAGA_CHECK_MATH_DISTANCE,
    /// `length`.
    Length = sys::NAGA_CHECK_MATH_LENGTH,
    /// `normalize`.
    Normalize = sys::NAGA_CHECK_MATH_NORMALIZE,
    /// `faceForward`.
    FaceForward = sys::NAGA_CHECK_MATH_FACE_FORWARD,
    /// `reflect`.
    Reflect = sys::NAGA_CHECK_MATH_REFLECT,
    /// `refract`.
    Refract = sys::NAGA_CHECK_MATH_REFRACT,
    /// `sign`.
    Sign = sys::NAGA_CHECK_MATH_SIGN,
    /// `fma`.
    Fma = sys::NAGA_CHECK_MATH_FMA,
    /// `mix`.
    Mix = sys::NAGA_CHECK_MATH_MIX,
    /// `step`.
    Step = sys::NAGA_CHECK_MATH_STEP,
    /// `smoothstep`.
    SmoothStep = sys::NAGA_CHECK_MATH_SMOOTH_STEP,
    /// `sqrt`.
    Sqrt = sys::NAGA_CHECK_MATH_SQRT,
    /// `inverseSqrt`.
    InverseSqrt = sys::NAGA_CHECK_MATH_INVERSE_SQRT,
    /// `transpose`.
    Transpose = sys::NAGA_CHECK_MATH_TRANSPOSE,
    /// `determinant`.
    Determinant = sys::NAGA_CHECK_MATH_DETERMINANT,
    /// `quantizeToF16`.
    QuantizeToF16 = sys::NAGA_CHECK_MATH_QUANTIZE_TO_F16,
    /// `countTrailingZeros`.
    CountTrailingZeros = sys::NAGA_CHECK_MATH_COUNT_TRAILING_ZEROS,
    /// `countLeadingZeros`.
    CountLeadingZeros = sys::NAGA_CHECK_MATH_COUNT_LEADING_ZEROS,
    /// `countOneBits`.
    CountOneBits = sys::NAGA_CHECK_MATH_COUNT_ONE_BITS,
    /// `reverseBits`.
    ReverseBits = sys::NAGA_CHECK_MATH_REVERSE_BITS,
    /// `extractBits`.
    ExtractBits = sys::NAGA_CHECK_MATH_EXTRACT_BITS,
    /// `insertBits`.
    InsertBits = sys::NAGA_CHECK_MATH_INSERT_BITS,
    /// `firstTrailingBit`.
    FirstTrailingBit = sys::NAGA_CHECK_MATH_FIRST_TRAILING_BIT,
    /// `firstLeadingBit`.
    FirstLeadingBit = sys::NAGA_CHECK_MATH_FIRST_LEADING_BIT,
    /// `pack2x16float`.
    Pack2x16float = sys::NAGA_CHECK_MATH_PACK2X16FLOAT,
    /// `unpack2x16float`.
    Unpack2x16float = sys::NAGA_CHECK_MATH_UNPACK2X16FLOAT,
    /// `modf`.
    Modf = sys::NAGA_CHECK_MATH_MODF,
    /// `frexp`.
    Frexp = sys::NAGA_CHECK_MATH_FREXP,
    /// `ldexp`.
    Ldexp = sys::NAGA_CHECK_MATH_LDEXP,
    /// `dot4I8Packed`.
    Dot4I8Packed = sys::NAGA_CHECK_MATH_DOT4I8_PACKED,
    /// `dot4U8Packed`.
    Dot4U8Packed = sys::NAGA_CHECK_MATH_DOT4U8_PACKED,
    /// `outerProduct` of GLSL.
    Outer = sys::NAGA_CHECK_MATH_OUTER,
    /// `inverse` of GLSL.
    Inverse = sys::NAGA_CHECK_MATH_INVERSE,
    /// `pack4x8snorm`.
    Pack4x8snorm = sys::NAGA_CHECK_MATH_PACK4X8SNORM,
    /// `pack4x8unorm`.
    Pack4x8unorm = sys::NAGA_CHECK_MATH_PACK4X8UNORM,
    /// `pack2x16snorm`.
    Pack2x16snorm = sys::NAGA_CHECK_MATH_PACK2X16SNORM,
    /// `pack2x16unorm`.
    Pack2x16unorm = sys::NAGA_CHECK_MATH_PACK2X16UNORM,
    /// `pack4xI8`.
    Pack4xI8 = sys::NAGA_CHECK_MATH_PACK4XI8,
    /// `pack4xU8`.
    Pack4xU8 = sys::NAGA_CHECK_MATH_PACK4XU8,
    /// `pack4xI8Clamp`.
    Pack4xI8Clamp = sys::NAGA_CHECK_MATH_PACK4XI8_CLAMP,
    /// `pack4xU8Clamp`.
    Pack4xU8Clamp = sys::NAGA_CHECK_MATH_PACK4XU8_CLAMP,
    /// `unpack4x8snorm`.
    Unpack4x8snorm = sys::NAGA_CHECK_MATH_UNPACK4X8SNORM,
    /// `unpack4x8unorm`.
    Unpack4x8unorm = sys::NAGA_CHECK_MATH_UNPACK4X8UNORM,
    /// `unpack2x16snorm`.
    Unpack2x16snorm = sys::NAGA_CHECK_MATH_UNPACK2X16SNORM,
    /// `unpack2x16unorm`.
    Unpack2x16unorm = sys::NAGA_CHECK_MATH_UNPACK2X16UNORM,
    /// `unpack4xI8`.
    Unpack4xI8 = sys::NAGA_CHECK_MATH_UNPACK4XI8,
    /// `unpack4xU8`.
    Unpack4xU8 = sys::NAGA_CHECK_MATH_UNPACK4XU8,
}

words_of_values!(
    UnaryOperator,
    BinaryOperator,
    RelationalFunction,
    MathFunction
);
