//! Why an expression of a function is refused.

use crate::errors::{ComposeError, IndexableLengthError, LiteralError, ResolveError};
use crate::expressions::{Expression, SwizzleComponent};
use crate::flags::Capabilities;
use crate::operands::Handle;
use crate::operators::{BinaryOperator, MathFunction, UnaryOperator};
use crate::storage_format::StorageFormat;
use crate::sys;
use crate::told::errors;
use crate::types::{ImageClass, ImageDimension, ScalarKind, StorageAccess, Type, VectorSize};

errors! {
    /// Why an expression of a function or an entry point is refused.
    pub enum ExpressionError {
        /// Never returned: scopes are not checked here.
        NotInScope = sys::NAGA_CHECK_EXPRESSION_ERROR_NOT_IN_SCOPE
            => "Used by a statement before it was introduced into the scope by any of the dominating blocks",
        /// The base of an access has no parts.
        InvalidBaseType(operand: Handle<Expression>) = sys::NAGA_CHECK_EXPRESSION_ERROR_INVALID_BASE_TYPE
            => "Base type {operand:?} is not compatible with this expression",
        /// The index of an access is not an integer, or is a constant of another width than 16 or 32 bits.
        InvalidIndexType(operand: Handle<Expression>) = sys::NAGA_CHECK_EXPRESSION_ERROR_INVALID_INDEX_TYPE
            => "Accessing with index {operand:?} can't be done",
        /// A base is accessed at a constant index below 0.
        NegativeIndex(operand: Handle<Expression>) = sys::NAGA_CHECK_EXPRESSION_ERROR_NEGATIVE_INDEX
            => "Accessing {operand:?} via a negative index is invalid",
        /// A base is accessed at an index past its last part.
        IndexOutOfBounds(base: Handle<Expression>, index: u32) = sys::NAGA_CHECK_EXPRESSION_ERROR_INDEX_OUT_OF_BOUNDS
            => "Accessing index {index} is out of {base:?} bounds",
        /// The function has no argument of this index.
        FunctionArgumentDoesntExist(index: u32) = sys::NAGA_CHECK_EXPRESSION_ERROR_FUNCTION_ARGUMENT_DOESNT_EXIST
            => "Function argument {index} doesn't exist",
        /// A value is loaded through something that is neither a pointer to data of a fixed size nor a value pointer,
        /// or a cooperative matrix through something that is not a pointer to scalars or vectors.
        InvalidPointerType(operand: Handle<Expression>) = sys::NAGA_CHECK_EXPRESSION_ERROR_INVALID_POINTER_TYPE
            => "Loading of {operand:?} can't be done",
        /// The length is taken of something that is not a pointer to a runtime-sized array.
        InvalidArrayType(operand: Handle<Expression>) = sys::NAGA_CHECK_EXPRESSION_ERROR_INVALID_ARRAY_TYPE
            => "Array length of {operand:?} can't be done",
        /// A hit is read from something that is not a pointer to a ray query of the function.
        InvalidRayQueryType(operand: Handle<Expression>) = sys::NAGA_CHECK_EXPRESSION_ERROR_INVALID_RAY_QUERY_TYPE
            => "Get intersection of {operand:?} can't be done",
        /// The operand of a splat is not a scalar.
        InvalidSplatType(operand: Handle<Expression>) = sys::NAGA_CHECK_EXPRESSION_ERROR_INVALID_SPLAT_TYPE
            => "Splatting {operand:?} can't be done",
        /// The operand of a swizzle is not a vector.
        InvalidVectorType(operand: Handle<Expression>) = sys::NAGA_CHECK_EXPRESSION_ERROR_INVALID_VECTOR_TYPE
            => "Swizzling {operand:?} can't be done",
        /// A vector of this size has no such component.
        InvalidSwizzleComponent(component: SwizzleComponent, size: VectorSize) = sys::NAGA_CHECK_EXPRESSION_ERROR_INVALID_SWIZZLE_COMPONENT
            => "Swizzle component {component:?} is outside of vector size {size:?}",
        /// A value can't be composed of its components.
        Compose(cause: ComposeError) = sys::NAGA_CHECK_EXPRESSION_ERROR_COMPOSE => "{cause}",
        /// A type without a zero.
        InvalidZeroValue(ty: Handle<Type>) = sys::NAGA_CHECK_EXPRESSION_ERROR_INVALID_ZERO_VALUE
            => "Cannot construct zero value of {ty:?} because it is not a constructible type",
        /// The base of an access at a constant index has no length.
        IndexableLength(cause: IndexableLengthError) = sys::NAGA_CHECK_EXPRESSION_ERROR_INDEXABLE_LENGTH => "{cause}",
        /// The operator takes no such operand.
        InvalidUnaryOperandType(op: UnaryOperator, operand: Handle<Expression>) = sys::NAGA_CHECK_EXPRESSION_ERROR_INVALID_UNARY_OPERAND_TYPE
            => "Operation {op:?} can't work with {operand:?}",
        /// The operator takes no such pair of operands.
        InvalidBinaryOperandTypes {
            /// The operator.
            op: BinaryOperator,
            /// The left operand.
            lhs_expr: Handle<Expression>,
            /// The right operand.
            rhs_expr: Handle<Expression>,
        } = sys::NAGA_CHECK_EXPRESSION_ERROR_INVALID_BINARY_OPERAND_TYPES
            => "Operation {op:?} can't work with {lhs_expr:?} and {rhs_expr:?}",
        /// The two values of a selection have different types.
        SelectValuesTypeMismatch = sys::NAGA_CHECK_EXPRESSION_ERROR_SELECT_VALUES_TYPE_MISMATCH
            => "Expected selection argument types to match, but reject value's type does not match accept value's",
        /// The condition of a selection is neither a bool nor a vector of as many as the values have components; or the
        /// values are neither scalars nor vectors.
        SelectConditionNotABool = sys::NAGA_CHECK_EXPRESSION_ERROR_SELECT_CONDITION_NOT_A_BOOL
            => "Expected selection condition to be a boolean value",
        /// The argument of `All` or `Any` is not a vector of bools.
        InvalidBooleanVector(operand: Handle<Expression>) = sys::NAGA_CHECK_EXPRESSION_ERROR_INVALID_BOOLEAN_VECTOR
            => "Relational argument {operand:?} is not a boolean vector",
        /// The argument of `IsNan` or `IsInf` is neither a floating-point number nor a vector of such.
        InvalidFloatArgument(operand: Handle<Expression>) = sys::NAGA_CHECK_EXPRESSION_ERROR_INVALID_FLOAT_ARGUMENT
            => "Relational argument {operand:?} is not a float",
        /// An expression has no type.
        Type(source: ResolveError) = sys::NAGA_CHECK_EXPRESSION_ERROR_TYPE
            => "Type resolution failed",
        /// An image or a sampler is neither a variable of the module nor an argument nor an element of such a variable.
        ExpectedGlobalVariable = sys::NAGA_CHECK_EXPRESSION_ERROR_EXPECTED_GLOBAL_VARIABLE => "Not a global variable",
        /// Never returned: `ExpectedGlobalVariable` is.
        ExpectedGlobalOrArgument = sys::NAGA_CHECK_EXPRESSION_ERROR_EXPECTED_GLOBAL_OR_ARGUMENT
            => "Not a global variable or a function argument",
        /// An element is taken of a variable that is not a binding array.
        ExpectedBindingArrayType(ty: Handle<Type>) = sys::NAGA_CHECK_EXPRESSION_ERROR_EXPECTED_BINDING_ARRAY_TYPE
            => "Needs to be an binding array instead of {ty:?}",
        /// Something else stands in place of an image.
        ExpectedImageType(ty: Handle<Type>) = sys::NAGA_CHECK_EXPRESSION_ERROR_EXPECTED_IMAGE_TYPE
            => "Needs to be an image instead of {ty:?}",
        /// Something else stands in place of a sampler.
        ExpectedSamplerType(ty: Handle<Type>) = sys::NAGA_CHECK_EXPRESSION_ERROR_EXPECTED_SAMPLER_TYPE
            => "Needs to be an image instead of {ty:?}",
        /// Images of this class can't be used so.
        InvalidImageClass(class: ImageClass) = sys::NAGA_CHECK_EXPRESSION_ERROR_INVALID_IMAGE_CLASS
            => "Unable to operate on image class {class:?}",
        /// Never returned: image atomics are not checked here.
        InvalidImageFormat(format: StorageFormat) = sys::NAGA_CHECK_EXPRESSION_ERROR_INVALID_IMAGE_FORMAT
            => "Image atomics are not supported for storage format {format:?}",
        /// Never returned: image atomics are not checked here.
        InvalidImageStorageAccess(access: StorageAccess) = sys::NAGA_CHECK_EXPRESSION_ERROR_INVALID_IMAGE_STORAGE_ACCESS
            => "Image atomics require atomic storage access, {access:?} is insufficient",
        /// A derivative is taken of something that is not a floating-point number of at least 32 bits, nor a vector of
        /// such.
        InvalidDerivative = sys::NAGA_CHECK_EXPRESSION_ERROR_INVALID_DERIVATIVE
            => "Derivatives can only be taken from scalar and vector floats",
        /// An image of layers has no index of one, or another image has.
        InvalidImageArrayIndex = sys::NAGA_CHECK_EXPRESSION_ERROR_INVALID_IMAGE_ARRAY_INDEX
            => "Image array index parameter is misplaced",
        /// A sample is chosen of an image that isn't multisampled.
        InvalidImageSampleSelector = sys::NAGA_CHECK_EXPRESSION_ERROR_INVALID_IMAGE_SAMPLE_SELECTOR
            => "Cannot textureLoad from a specific multisample sample on a non-multisampled image.",
        /// No sample is chosen of a multisampled image.
        MissingImageSampleSelector = sys::NAGA_CHECK_EXPRESSION_ERROR_MISSING_IMAGE_SAMPLE_SELECTOR
            => "Cannot textureLoad from a multisampled image without specifying a sample.",
        /// A level is chosen of an image without levels.
        InvalidImageLevelSelector = sys::NAGA_CHECK_EXPRESSION_ERROR_INVALID_IMAGE_LEVEL_SELECTOR
            => "Cannot textureLoad with a specific mip level on a non-mipmapped image.",
        /// No level is chosen of an image with levels.
        MissingImageLevelSelector = sys::NAGA_CHECK_EXPRESSION_ERROR_MISSING_IMAGE_LEVEL_SELECTOR
            => "Cannot textureLoad from a mipmapped image without specifying a level.",
        /// The index of an array layer is not an integer, for a load not an integer of 32 bits; or the level of a load
        /// is not an integer.
        InvalidImageArrayIndexType(operand: Handle<Expression>) = sys::NAGA_CHECK_EXPRESSION_ERROR_INVALID_IMAGE_ARRAY_INDEX_TYPE
            => "Image array index type of {operand:?} is not an integer scalar",
        /// The index of a sample or a level is not an integer of 32 bits.
        InvalidImageOtherIndexType(operand: Handle<Expression>) = sys::NAGA_CHECK_EXPRESSION_ERROR_INVALID_IMAGE_OTHER_INDEX_TYPE
            => "Image sample or level-of-detail index's type of {operand:?} is not an integer scalar",
        /// The coordinates don't fit an image of this dimension.
        InvalidImageCoordinateType(dim: ImageDimension, operand: Handle<Expression>) = sys::NAGA_CHECK_EXPRESSION_ERROR_INVALID_IMAGE_COORDINATE_TYPE
            => "Image coordinate type of {operand:?} does not match dimension {dim:?}",
        /// A reference is given to a sampler that doesn't compare, or none to one that does; or a sampler compares, and
        /// the image holds no depths.
        ComparisonSamplingMismatch {
            /// The class of the image.
            image: ImageClass,
            /// Whether the sampler compares.
            sampler: bool,
            /// Whether there is a reference.
            has_ref: bool,
        } = sys::NAGA_CHECK_EXPRESSION_ERROR_COMPARISON_SAMPLING_MISMATCH
            => "Comparison sampling mismatch: image has class {image:?}, but the sampler is comparison={sampler}, and the reference was provided={has_ref}",
        /// The offset of a sample is not known when the shader is compiled.
        InvalidSampleOffsetExprType = sys::NAGA_CHECK_EXPRESSION_ERROR_INVALID_SAMPLE_OFFSET_EXPR_TYPE
            => "Sample offset must be a const-expression",
        /// The offset doesn't fit an image of this dimension.
        InvalidSampleOffset(dim: ImageDimension, operand: Handle<Expression>) = sys::NAGA_CHECK_EXPRESSION_ERROR_INVALID_SAMPLE_OFFSET
            => "Sample offset constant {operand:?} doesn't match the image dimension {dim:?}",
        /// What depths are compared with is not a floating-point number.
        InvalidDepthReference(operand: Handle<Expression>) = sys::NAGA_CHECK_EXPRESSION_ERROR_INVALID_DEPTH_REFERENCE
            => "Depth reference {operand:?} is not a scalar float",
        /// Depths are compared at another level than `Auto` or `Zero`.
        InvalidDepthSampleLevel = sys::NAGA_CHECK_EXPRESSION_ERROR_INVALID_DEPTH_SAMPLE_LEVEL
            => "Depth sample level can only be Auto or Zero",
        /// Texels are gathered at another level than `Zero`.
        InvalidGatherLevel = sys::NAGA_CHECK_EXPRESSION_ERROR_INVALID_GATHER_LEVEL => "Gather level can only be Zero",
        /// The image has no such component to gather.
        InvalidGatherComponent(component: SwizzleComponent) = sys::NAGA_CHECK_EXPRESSION_ERROR_INVALID_GATHER_COMPONENT
            => "Gather component {component:?} doesn't exist in the image",
        /// Texels can't be gathered of an image of this dimension.
        InvalidGatherDimension(dim: ImageDimension) = sys::NAGA_CHECK_EXPRESSION_ERROR_INVALID_GATHER_DIMENSION
            => "Gather can't be done for image dimension {dim:?}",
        /// The number of a level is not an integer for a depth image, or not a floating-point number for another.
        InvalidSampleLevelExactType(operand: Handle<Expression>) = sys::NAGA_CHECK_EXPRESSION_ERROR_INVALID_SAMPLE_LEVEL_EXACT_TYPE
            => "Sample level (exact) type {operand:?} has an invalid type",
        /// The bias of a level is not a floating-point number.
        InvalidSampleLevelBiasType(operand: Handle<Expression>) = sys::NAGA_CHECK_EXPRESSION_ERROR_INVALID_SAMPLE_LEVEL_BIAS_TYPE
            => "Sample level (bias) type {operand:?} is not a scalar float",
        /// Images of this dimension have no bias.
        InvalidSampleLevelBiasDimension(dim: ImageDimension) = sys::NAGA_CHECK_EXPRESSION_ERROR_INVALID_SAMPLE_LEVEL_BIAS_DIMENSION
            => "Bias can't be done for image dimension {dim:?}",
        /// A derivative doesn't fit the coordinates of an image of this dimension.
        InvalidSampleLevelGradientType(dim: ImageDimension, operand: Handle<Expression>) = sys::NAGA_CHECK_EXPRESSION_ERROR_INVALID_SAMPLE_LEVEL_GRADIENT_TYPE
            => "Sample level (gradient) of {operand:?} doesn't match the image dimension {dim:?}",
        /// Coordinates can't be clamped to the edges together with this.
        InvalidSampleClampCoordinateToEdge = sys::NAGA_CHECK_EXPRESSION_ERROR_INVALID_SAMPLE_CLAMP_COORDINATE_TO_EDGE
            => "Clamping sample coordinate to edge is not supported",
        /// The operand of a conversion is neither a scalar nor a vector nor a matrix, or there are no such scalars to
        /// convert to.
        InvalidCastArgument = sys::NAGA_CHECK_EXPRESSION_ERROR_INVALID_CAST_ARGUMENT => "Unable to cast",
        /// A math function has too few arguments, or a gap between them.
        WrongArgumentCount(function: MathFunction) = sys::NAGA_CHECK_EXPRESSION_ERROR_WRONG_ARGUMENT_COUNT
            => "Invalid argument count for {function:?}",
        /// The argument of this index has a wrong type.
        InvalidArgumentType(function: MathFunction, index: u32, argument: Handle<Expression>) = sys::NAGA_CHECK_EXPRESSION_ERROR_INVALID_ARGUMENT_TYPE
            => "Argument [{index}] to {function:?} as expression {argument:?} has an invalid type.",
        /// A workgroup can't load a value of this type together, which has no fixed size or isn't constructible.
        InvalidWorkGroupUniformLoadResultType(ty: Handle<Type>) = sys::NAGA_CHECK_EXPRESSION_ERROR_INVALID_WORKGROUP_UNIFORM_LOAD_RESULT_TYPE
            => "workgroupUniformLoad result type can't be {ty:?}. It can only be a constructible type.",
        /// The expression needs capabilities that aren't given.
        MissingCapabilities(capabilities: Capabilities) = sys::NAGA_CHECK_EXPRESSION_ERROR_MISSING_CAPABILITIES
            => "Shader requires capability {capabilities:?}",
        /// A literal is refused.
        Literal(cause: LiteralError) = sys::NAGA_CHECK_EXPRESSION_ERROR_LITERAL
            => "{cause}",
        /// Never returned: the typing checks the arguments of math functions.
        UnsupportedWidth(function: MathFunction, kind: ScalarKind, width: u8) = sys::NAGA_CHECK_EXPRESSION_ERROR_UNSUPPORTED_WIDTH
            => "{function:?} is not supported for Width {width} {kind:?} arguments yet, see https://github.com/gfx-rs/wgpu/issues/5276",
        /// An operand of a cooperative multiplication is not a cooperative matrix of its role.
        InvalidCooperativeOperand(operand: Handle<Expression>) = sys::NAGA_CHECK_EXPRESSION_ERROR_INVALID_COOPERATIVE_OPERAND
            => "Invalid operand for cooperative op",
        /// An integer is shifted by a constant of at least as many bits as it has, or that has such a component.
        ShiftAmountTooLarge {
            /// By what it is shifted.
            rhs_expr: Handle<Expression>,
        } = sys::NAGA_CHECK_EXPRESSION_ERROR_SHIFT_AMOUNT_TOO_LARGE
            => "Shift amount {rhs_expr:?} exceeds the bit width",
        /// An integer is divided by a constant that is zero, or has a component that is.
        DivideByZero = sys::NAGA_CHECK_EXPRESSION_ERROR_DIVIDE_BY_ZERO => "Division by zero",
    }
}
