//! What is wrong with a module.
//!
//! The errors have naga's names, naga's fields and naga's texts, but for types and texts, which the library doesn't
//! return: where naga's text shows one, the text here leaves it out.

use crate::bindings::{Interpolation, Sampling};
use crate::built_in::BuiltIn;
use crate::declaration_errors::{EntryPointError, FunctionDeclarationError, GlobalVariableError};
use crate::expression_error::ExpressionError;
use crate::expressions::Expression;
use crate::flags::Capabilities;
use crate::module::{Constant, Function, GlobalVariable, Override};
use crate::operands::Handle;
use crate::stages::ShaderStage;
use crate::sys::{self, NagaCheckOutcome};
use crate::told::{errors, ItemKind, Tell, Told};
use crate::types::{AddressSpace, ImageClass, ImageDimension, Scalar, ScalarKind, Type};
use std::error;
use std::fmt;

/// Why a call has no result.
#[derive(Clone, Copy, Debug, PartialEq, Eq, Hash)]
#[non_exhaustive]
pub enum Error {
    /// The module breaks a rule.
    Refused(Refusal),
    /// The words or the text can't be read.
    Unreadable {
        /// The index of the first word of the first item that can't be read, or the number of words; of a text the
        /// number of the first line that can't be read, from 1.
        at: u64,
    },
    /// Memory was refused: nothing is known of the module.
    OutOfMemory,
    /// The module has no type of an index that was given.
    NoType,
    /// Hosts may not share values of the type that was given.
    NotShareable,
    /// There are more words, items or leaves than the options allow.
    Limit,
    /// The flags or the capabilities of the options have a bit that has no name.
    Options,
    /// Settings come with the module, and the options don't allow that.
    Settings,
    /// The library returned a number that this crate doesn't know: it is of another version.
    Unknown,
}

impl fmt::Display for Error {
    fn fmt(&self, f: &mut fmt::Formatter<'_>) -> fmt::Result {
        match self {
            Error::Refused(_) => f.write_str("The module breaks a rule"),
            Error::Unreadable { at } => write!(f, "The module can't be read from {at} on"),
            Error::OutOfMemory => f.write_str("Out of memory"),
            Error::NoType => f.write_str("The module has no such type"),
            Error::NotShareable => f.write_str("Hosts may not share values of the type"),
            Error::Limit => f.write_str("The module is larger than the options allow"),
            Error::Options => f.write_str("The options have a flag that has no name"),
            Error::Settings => f.write_str("Settings come with the module"),
            Error::Unknown => f.write_str("The library is of another version"),
        }
    }
}

impl error::Error for Error {
    fn source(&self) -> Option<&(dyn error::Error + 'static)> {
        match self {
            Error::Refused(refusal) => Some(refusal),
            _ => None,
        }
    }
}

/// Which item of a module breaks a rule, and which rule.
#[derive(Clone, Copy, Debug, PartialEq, Eq, Hash)]
#[non_exhaustive]
pub enum Refusal {
    /// A handle or range is not right.
    Handle {
        /// The kind of the item.
        kind: ItemKind,
        /// The dangling index, the index of the item that depends on a later one, or the start of the range.
        index: u64,
        /// What is wrong.
        error: HandleError,
    },
    /// A type has no layout.
    Layout {
        /// The type.
        ty: Handle<Type>,
        /// Why.
        error: LayoutError,
    },
    /// A type breaks its rule.
    Type {
        /// The type.
        ty: Handle<Type>,
        /// Which rule.
        error: TypeError,
    },
    /// A global expression breaks its rule.
    GlobalExpression {
        /// The expression.
        expression: Handle<Expression>,
        /// Which rule.
        error: ConstExpressionError,
    },
    /// A constant breaks its rule.
    Constant {
        /// The constant.
        constant: Handle<Constant>,
        /// Which rule.
        error: ConstantError,
    },
    /// An override breaks its rule.
    Override {
        /// The override.
        by: Handle<Override>,
        /// Which rule.
        error: OverrideError,
    },
    /// An expression of a function breaks its rule.
    Function {
        /// The function.
        function: Handle<Function>,
        /// The expression.
        expression: Handle<Expression>,
        /// Which rule.
        error: ExpressionError,
    },
    /// An expression of an entry point breaks its rule.
    EntryPoint {
        /// The index of the entry point.
        index: u64,
        /// The expression.
        expression: Handle<Expression>,
        /// Which rule.
        error: ExpressionError,
    },
    /// The module as a whole breaks a rule. No call returns it.
    Module {
        /// Which rule.
        error: ModuleError,
    },
    /// A variable of the module breaks its rule.
    GlobalVariable {
        /// The variable.
        variable: Handle<GlobalVariable>,
        /// Which rule.
        error: GlobalVariableError,
    },
    /// A function declares what it may not.
    Declarations {
        /// The function.
        function: Handle<Function>,
        /// Which rule.
        error: FunctionDeclarationError,
    },
    /// An entry point breaks a rule of its stage, its inputs or its outputs.
    Interface {
        /// The index of the entry point.
        index: u64,
        /// Which rule.
        error: EntryPointError,
    },
}

/// The handle of an index that a call returned.
fn handle<T>(index: u64) -> Option<Handle<T>> {
    let index = u32::try_from(index).ok()?;
    (index != sys::NAGA_CHECK_NONE).then(|| Handle::new(index))
}

impl Refusal {
    /// What a call found out, if this crate knows its numbers.
    pub(crate) fn from_outcome(outcome: &NagaCheckOutcome) -> Option<Refusal> {
        let index = outcome.index;
        let told = &mut Told::of_outcome(outcome);
        Some(match outcome.stage {
            sys::NAGA_CHECK_STAGE_HANDLE => Refusal::Handle {
                kind: ItemKind::tell(told)?,
                index,
                error: HandleError::tell(told)?,
            },
            sys::NAGA_CHECK_STAGE_LAYOUT => Refusal::Layout {
                ty: handle(index)?,
                error: LayoutError::tell(told)?,
            },
            sys::NAGA_CHECK_STAGE_TYPE => Refusal::Type {
                ty: handle(index)?,
                error: TypeError::tell(told)?,
            },
            sys::NAGA_CHECK_STAGE_GLOBAL_EXPRESSION => Refusal::GlobalExpression {
                expression: handle(index)?,
                error: ConstExpressionError::tell(told)?,
            },
            sys::NAGA_CHECK_STAGE_CONSTANT => Refusal::Constant {
                constant: handle(index)?,
                error: ConstantError::tell(told)?,
            },
            sys::NAGA_CHECK_STAGE_OVERRIDE => Refusal::Override {
                by: handle(index)?,
                error: OverrideError::tell(told)?,
            },
            _ => return Refusal::of_expression(outcome),
        })
    }

    /// The same of the stages that `naga_check_functions` has after those of `naga_check_words`.
    fn of_expression(outcome: &NagaCheckOutcome) -> Option<Refusal> {
        let index = outcome.index;
        let told = &mut Told::of_outcome(outcome);
        let expression = handle(outcome.expression.into())?;
        Some(match outcome.stage {
            sys::NAGA_CHECK_STAGE_FUNCTION => Refusal::Function {
                function: handle(index)?,
                expression,
                error: ExpressionError::tell(told)?,
            },
            sys::NAGA_CHECK_STAGE_ENTRY_POINT => Refusal::EntryPoint {
                index,
                expression,
                error: ExpressionError::tell(told)?,
            },
            sys::NAGA_CHECK_STAGE_MODULE => Refusal::Module {
                error: ModuleError::tell(told)?,
            },
            _ => return Refusal::of_declaration(outcome),
        })
    }

    /// The same of the stages that only `naga_check_declarations` has.
    fn of_declaration(outcome: &NagaCheckOutcome) -> Option<Refusal> {
        let index = outcome.index;
        let told = &mut Told::of_outcome(outcome);
        Some(match outcome.stage {
            sys::NAGA_CHECK_STAGE_GLOBAL_VARIABLE => Refusal::GlobalVariable {
                variable: handle(index)?,
                error: GlobalVariableError::tell(told)?,
            },
            sys::NAGA_CHECK_STAGE_DECLARATIONS => Refusal::Declarations {
                function: handle(index)?,
                error: FunctionDeclarationError::tell(told)?,
            },
            sys::NAGA_CHECK_STAGE_INTERFACE => Refusal::Interface {
                index,
                error: EntryPointError::tell(told)?,
            },
            _ => return None,
        })
    }
}

impl fmt::Display for Refusal {
    fn fmt(&self, f: &mut fmt::Formatter<'_>) -> fmt::Result {
        match self {
            Refusal::Handle { kind, index, .. } => {
                write!(f, "Handle or range [{index}] of {kind} is invalid")
            }
            Refusal::Layout { ty, .. } => write!(f, "Error laying out type {ty:?}"),
            Refusal::Type { ty, .. } => write!(f, "Type {ty:?} is invalid"),
            Refusal::GlobalExpression { expression, .. } => {
                write!(f, "Constant expression {expression:?} is invalid")
            }
            Refusal::Constant { constant, .. } => write!(f, "Constant {constant:?} is invalid"),
            Refusal::Override { by, .. } => write!(f, "Override {by:?} is invalid"),
            Refusal::Function {
                function,
                expression,
                ..
            } => {
                write!(
                    f,
                    "Expression {expression:?} of function {function:?} is invalid"
                )
            }
            Refusal::EntryPoint {
                index, expression, ..
            } => {
                write!(
                    f,
                    "Expression {expression:?} of entry point [{index}] is invalid"
                )
            }
            Refusal::Module { .. } => f.write_str("The module is invalid"),
            Refusal::GlobalVariable { variable, .. } => {
                write!(f, "Global variable {variable:?} is invalid")
            }
            Refusal::Declarations { function, .. } => {
                write!(f, "Function {function:?} is invalid")
            }
            Refusal::Interface { index, .. } => write!(f, "Entry point [{index}] is invalid"),
        }
    }
}

impl error::Error for Refusal {
    fn source(&self) -> Option<&(dyn error::Error + 'static)> {
        Some(match self {
            Refusal::Handle { error, .. } => error,
            Refusal::Layout { error, .. } => error,
            Refusal::Type { error, .. } => error,
            Refusal::GlobalExpression { error, .. } => error,
            Refusal::Constant { error, .. } => error,
            Refusal::Override { error, .. } => error,
            Refusal::Function { error, .. } | Refusal::EntryPoint { error, .. } => error,
            Refusal::Module { error } => error,
            Refusal::GlobalVariable { error, .. } => error,
            Refusal::Declarations { error, .. } => error,
            Refusal::Interface { error, .. } => error,
        })
    }
}

errors! {
    /// What is wrong with a handle or range of a module.
    pub enum HandleError {
        /// It is dangling.
        BadHandle {
            /// The kind of the item.
            kind: ItemKind,
            /// The index.
            index: u64,
        } = sys::NAGA_CHECK_HANDLE_ERROR_BAD_HANDLE
            => "Handle {index} of {kind} is either not present, or inaccessible yet",
        /// What it names doesn't precede the item that depends on it.
        ForwardDependency {
            /// The kind of both items.
            kind: ItemKind,
            /// The item.
            subject: u64,
            /// What it depends on.
            depends_on: u64,
        } = sys::NAGA_CHECK_HANDLE_ERROR_FORWARD_DEPENDENCY
            => "[{subject}] of kind \"{kind}\" depends on [{depends_on}] of kind {kind}, which has not been processed yet",
        /// It is a range of expressions to emit that goes back, or ends after the last expression.
        BadRange {
            /// The kind of the items.
            kind: ItemKind,
            /// The first index.
            start: u32,
            /// The index after the last.
            end: u32,
        } = sys::NAGA_CHECK_HANDLE_ERROR_BAD_RANGE
            => "Handle range [{start}..{end}] of {kind} is either not present, or inaccessible yet",
    }
}

errors! {
    /// Why a type has no layout.
    pub enum LayoutError {
        /// An array is larger than 2147483647 bytes.
        TooLarge = sys::NAGA_CHECK_LAYOUT_ERROR_TOO_LARGE => "The array is larger than 2147483647 bytes",
        /// The width of a scalar, in bytes, is not a power of two.
        NonPowerOfTwoWidth = sys::NAGA_CHECK_LAYOUT_ERROR_NON_POWER_OF_TWO_WIDTH
            => "The scalar width is not a power of two",
    }
}

errors! {
    /// Why a type is refused.
    pub enum TypeError {
        /// A type needs a capability that isn't given.
        MissingCapability(capabilities: Capabilities) = sys::NAGA_CHECK_TYPE_ERROR_MISSING_CAPABILITY
            => "Capability {capabilities:?} is required",
        /// No capability allows atomic scalars of this kind and width.
        InvalidAtomicWidth(kind: ScalarKind, width: u8) = sys::NAGA_CHECK_TYPE_ERROR_INVALID_ATOMIC_WIDTH
            => "The {kind:?} scalar width {width} is not supported for an atomic",
        /// A pointer's base is not data (WGSL "Memory Views").
        InvalidPointerBase(base: Handle<Type>) = sys::NAGA_CHECK_TYPE_ERROR_INVALID_POINTER_BASE
            => "Invalid type for pointer target {base:?}",
        /// A pointer's base has no fixed size, and the pointer's space is not `Storage`.
        InvalidPointerToUnsized {
            /// The base.
            base: Handle<Type>,
            /// The pointer's space.
            space: AddressSpace,
        } = sys::NAGA_CHECK_TYPE_ERROR_INVALID_POINTER_TO_UNSIZED
            => "Unsized types like {base:?} must be in the `Storage` address space, not `{space:?}`",
        /// The type can't be the type of a member or of an element of a binding array, or a comment is on a member that
        /// the type doesn't have.
        InvalidData(ty: Handle<Type>) = sys::NAGA_CHECK_TYPE_ERROR_INVALID_DATA
            => "Expected data type, found {ty:?}",
        /// An array's elements are not data of a size that is fixed when a module is created (WGSL "Array Types").
        InvalidArrayBaseType(base: Handle<Type>) = sys::NAGA_CHECK_TYPE_ERROR_INVALID_ARRAY_BASE_TYPE
            => "Base type {base:?} for the array is invalid",
        /// A matrix has components other than floating-point numbers (WGSL "Matrix Types").
        MatrixElementNotFloat = sys::NAGA_CHECK_TYPE_ERROR_MATRIX_ELEMENT_NOT_FLOAT
            => "Matrix elements must always be floating-point types",
        /// Never returned: no constant is specialized here.
        UnsupportedSpecializedArrayLength(constant: Handle<Constant>) = sys::NAGA_CHECK_TYPE_ERROR_UNSUPPORTED_SPECIALIZED_ARRAY_LENGTH
            => "The constant {constant:?} is specialized, and cannot be used as an array size",
        /// Images of this dimension and class are not supported (WGSL "Texture Types").
        UnsupportedImageType {
            /// The dimension.
            dim: ImageDimension,
            /// Whether the image has layers.
            arrayed: bool,
            /// The class.
            class: ImageClass,
        } = sys::NAGA_CHECK_TYPE_ERROR_UNSUPPORTED_IMAGE_TYPE
            => "{} of dimensionality {dim:?} and class {class:?} are not supported" (images(*arrayed)),
        /// An array has a stride below the size of its elements.
        InvalidArrayStride {
            /// The stride, in bytes.
            stride: u32,
            /// The size of an element, in bytes.
            expected: u32,
        } = sys::NAGA_CHECK_TYPE_ERROR_INVALID_ARRAY_STRIDE
            => "Array stride {stride} does not match the expected {expected}",
        /// A member has no fixed size, and isn't an array at the end of its struct (WGSL "Structure Types").
        InvalidDynamicArray(ty: Handle<Type>) = sys::NAGA_CHECK_TYPE_ERROR_INVALID_DYNAMIC_ARRAY
            => "A field can't be dynamically-sized, has type {ty:?}",
        /// The elements of a binding array are data, but not structs.
        BindingArrayBaseTypeNotStruct(base: Handle<Type>) = sys::NAGA_CHECK_TYPE_ERROR_BINDING_ARRAY_BASE_TYPE_NOT_STRUCT
            => "The base handle {base:?} has to be a struct",
        /// The elements of a binding array are external images.
        BindingArrayBaseExternalTextures = sys::NAGA_CHECK_TYPE_ERROR_BINDING_ARRAY_BASE_EXTERNAL_TEXTURES
            => "Binding arrays of external textures are not yet supported",
        /// A member begins before the end of the one before it, and not at 0.
        MemberOverlap {
            /// The member, from 0.
            index: u32,
            /// Its offset, in bytes.
            offset: u32,
        } = sys::NAGA_CHECK_TYPE_ERROR_MEMBER_OVERLAP
            => "Structure member[{index}] at {offset} overlaps the previous member",
        /// A member ends past the end of its struct.
        MemberOutOfBounds {
            /// The member, from 0.
            index: u32,
            /// Its offset, in bytes.
            offset: u32,
            /// Its size, in bytes.
            size: u32,
            /// The size of the struct, in bytes.
            span: u32,
        } = sys::NAGA_CHECK_TYPE_ERROR_MEMBER_OUT_OF_BOUNDS
            => "Structure member[{index}] at {offset} and size {size} crosses the structure boundary of size {span}",
        /// A struct has no members.
        EmptyStruct = sys::NAGA_CHECK_TYPE_ERROR_EMPTY_STRUCT => "Structure types must have at least one member",
        /// Some members are sources of blending, and can't be so.
        InvalidBlendSrc(cause: VaryingError) = sys::NAGA_CHECK_TYPE_ERROR_INVALID_BLEND_SRC
            => "Invalid `@blend_src` structure: {cause}",
        /// A scalar's width is not allowed.
        WidthError(cause: WidthError) = sys::NAGA_CHECK_TYPE_ERROR_WIDTH_ERROR => "{cause}",
        /// Never returned: sizes that overrides decide are `InvalidArraySize`.
        UnresolvedOverride(base: Handle<Type>) = sys::NAGA_CHECK_TYPE_ERROR_UNRESOLVED_OVERRIDE
            => "The base handle {base:?} has an override-expression that didn't get resolved to a constant",
        /// Overrides must have their values, and the one that sizes this array gives no count above 0.
        InvalidArraySize(base: Handle<Type>) = sys::NAGA_CHECK_TYPE_ERROR_INVALID_ARRAY_SIZE
            => "Override-sized array type {base:?} does not have a positive size",
    }
}

errors! {
    /// Why a global expression is refused.
    pub enum ConstExpressionError {
        /// Its value is known only when the shader runs.
        NonConstOrOverride = sys::NAGA_CHECK_CONST_EXPRESSION_ERROR_NON_CONST_OR_OVERRIDE
            => "The expression is not a constant or override expression",
        /// Its value should be known, and is still to be computed.
        NonFullyEvaluatedConst = sys::NAGA_CHECK_CONST_EXPRESSION_ERROR_NON_FULLY_EVALUATED_CONST
            => "The expression is not a fully evaluated constant expression",
        /// A value can't be composed of its components.
        Compose(cause: ComposeError) = sys::NAGA_CHECK_CONST_EXPRESSION_ERROR_COMPOSE => "{cause}",
        /// The operand of a splat is not a scalar.
        InvalidSplatType(operand: Handle<Expression>) = sys::NAGA_CHECK_CONST_EXPRESSION_ERROR_INVALID_SPLAT_TYPE
            => "Splatting {operand:?} can't be done",
        /// It has no type.
        Type(source: ResolveError) = sys::NAGA_CHECK_CONST_EXPRESSION_ERROR_TYPE
            => "Type resolution failed",
        /// The width of a literal is not allowed.
        Literal(cause: LiteralError) = sys::NAGA_CHECK_CONST_EXPRESSION_ERROR_LITERAL
            => "{cause}",
        /// Never returned: a width is refused inside `Literal`.
        Width(cause: WidthError) = sys::NAGA_CHECK_CONST_EXPRESSION_ERROR_WIDTH => "{cause}",
    }
}

errors! {
    /// Why a constant is refused.
    pub enum ConstantError {
        /// The value of the initialiser isn't known when the shader is compiled.
        InitializerExprType = sys::NAGA_CHECK_CONSTANT_ERROR_INITIALIZER_EXPR_TYPE
            => "Initializer must be a const-expression",
        /// The initialiser has another type than the constant.
        InvalidType = sys::NAGA_CHECK_CONSTANT_ERROR_INVALID_TYPE => "The type doesn't match the constant",
        /// The type of the constant is not constructible (WGSL "Constructible Types").
        NonConstructibleType = sys::NAGA_CHECK_CONSTANT_ERROR_NON_CONSTRUCTIBLE_TYPE
            => "The type is not constructible",
    }
}

errors! {
    /// Why an override is refused.
    pub enum OverrideError {
        /// Never returned: an override may lack both.
        MissingNameAndID = sys::NAGA_CHECK_OVERRIDE_ERROR_MISSING_NAME_AND_ID => "Override name and ID are missing",
        /// An earlier override has the same number (WGSL "id").
        DuplicateID = sys::NAGA_CHECK_OVERRIDE_ERROR_DUPLICATE_ID => "Override ID must be unique",
        /// Never returned: the rule of global expressions refuses such an initialiser.
        InitializerExprType = sys::NAGA_CHECK_OVERRIDE_ERROR_INITIALIZER_EXPR_TYPE
            => "Initializer must be a const-expression or override-expression",
        /// The initialiser has another type than the override.
        InvalidType = sys::NAGA_CHECK_OVERRIDE_ERROR_INVALID_TYPE => "The type doesn't match the override",
        /// The type of the override is not constructible (WGSL "Constructible Types").
        NonConstructibleType = sys::NAGA_CHECK_OVERRIDE_ERROR_NON_CONSTRUCTIBLE_TYPE
            => "The type is not constructible",
        /// The type of the override is none of the scalars that overrides may have (WGSL "override Declarations").
        TypeNotScalar = sys::NAGA_CHECK_OVERRIDE_ERROR_TYPE_NOT_SCALAR => "The type is not a scalar",
        /// Never returned: modules may have overrides.
        NotAllowed = sys::NAGA_CHECK_OVERRIDE_ERROR_NOT_ALLOWED => "Override declarations are not allowed",
        /// Overrides have to have their values, and this one has no initialiser.
        UninitializedOverride = sys::NAGA_CHECK_OVERRIDE_ERROR_UNINITIALIZED_OVERRIDE => "Override is uninitialized",
        /// Never returned: the rule of global expressions refuses them before.
        ConstExpression {
            /// The expression.
            handle: Handle<Expression>,
            /// Why it is refused.
            source: ConstExpressionError,
        } = sys::NAGA_CHECK_OVERRIDE_ERROR_CONST_EXPRESSION
            => "Constant expression {handle:?} is invalid",
    }
}

errors! {
    /// What is wrong with a module as a whole. No call returns it.
    pub enum ModuleError {
        /// The module is corrupted.
        Corrupted = sys::NAGA_CHECK_MODULE_ERROR_CORRUPTED => "Module is corrupted",
        /// The size of an array is not positive.
        ArraySize(handle: Handle<Expression>) = sys::NAGA_CHECK_MODULE_ERROR_ARRAY_SIZE
            => "Array size expression {handle:?} is not strictly positive",
    }
}

errors! {
    /// Why an input or output of an entry point is refused, or why the members of a struct can't be the two sources of
    /// blending (WGSL "User-defined Inputs and Outputs", "blend_src").
    pub enum VaryingError {
        /// A source of blending has another location than 0, or an index other than 0 and 1.
        InvalidBlendSrcIndex {
            /// The location.
            location: u32,
            /// The index of the source.
            blend_src: u32,
        } = sys::NAGA_CHECK_VARYING_ERROR_INVALID_BLEND_SRC_INDEX
            => "A blend source has to be 0 or 1 at location 0, and not {blend_src} at location {location}",
        /// An earlier member or output is the same source.
        BindingCollisionBlendSrc {
            /// The index of the source.
            blend_src: u32,
        } = sys::NAGA_CHECK_VARYING_ERROR_BINDING_COLLISION_BLEND_SRC
            => "Several members are the blend source {blend_src}",
        /// A member of a struct with blend sources has a location, but is not a source itself.
        InvalidBlendSrcWithOtherBindings {
            /// The location of the last such member.
            location: u32,
        } = sys::NAGA_CHECK_VARYING_ERROR_INVALID_BLEND_SRC_WITH_OTHER_BINDINGS
            => "A member at location {location} stands beside blend sources",
        /// The two sources have different types.
        BlendSrcOutputTypeMismatch {
            /// The type of the source 0.
            blend_src_0_type: Handle<Type>,
            /// The type of the source 1.
            blend_src_1_type: Handle<Type>,
        } = sys::NAGA_CHECK_VARYING_ERROR_BLEND_SRC_OUTPUT_TYPE_MISMATCH
            => "The blend sources are of the types {blend_src_0_type:?} and {blend_src_1_type:?}, which differ",
        /// Pipeline stages can't pass values of the type (WGSL "Input-output Locations").
        NotIOShareableType(ty: Handle<Type>) = sys::NAGA_CHECK_VARYING_ERROR_NOT_IO_SHAREABLE_TYPE
            => "Values of the type {ty:?} can't be passed between pipeline stages",
        /// Only one of the two sources exists.
        IncompleteBlendSrcUsage {
            /// The index of the source that exists.
            present_blend_src: u32,
        } = sys::NAGA_CHECK_VARYING_ERROR_INCOMPLETE_BLEND_SRC_USAGE
            => "Only the blend source {present_blend_src} is there, and not the other one",
        /// The type at a location is not a scalar or a vector.
        InvalidType(ty: Handle<Type>) = sys::NAGA_CHECK_VARYING_ERROR_INVALID_TYPE => "The type {ty:?} does not match the varying",
        /// The values of integers are not interpolated, and the interpolation is not `Flat`.
        InvalidInterpolation = sys::NAGA_CHECK_VARYING_ERROR_INVALID_INTERPOLATION => "Interpolation is not valid",
        /// The sampling says nothing of values that are interpolated so (WGSL "Interpolation").
        InvalidInterpolationSamplingCombination {
            /// How the value of a fragment is made.
            interpolation: Interpolation,
            /// Where it is taken.
            sampling: Sampling,
        } = sys::NAGA_CHECK_VARYING_ERROR_INVALID_INTERPOLATION_SAMPLING_COMBINATION
            => "Cannot combine {interpolation:?} interpolation with the {sampling:?} sample type",
        /// A floating-point output of a vertex shader or input of a fragment shader has no interpolation.
        MissingInterpolation = sys::NAGA_CHECK_VARYING_ERROR_MISSING_INTERPOLATION
            => "Interpolation must be specified on vertex shader outputs and fragment shader inputs",
        /// The stage has no such built-in value as an input, or as an output.
        InvalidBuiltInStage(value: BuiltIn) = sys::NAGA_CHECK_VARYING_ERROR_INVALID_BUILT_IN_STAGE
            => "Built-in {value:?} is not available at this stage",
        /// The built-in value has another type (WGSL "Built-in Inputs and Outputs").
        InvalidBuiltInType(value: BuiltIn) = sys::NAGA_CHECK_VARYING_ERROR_INVALID_BUILT_IN_TYPE
            => "Built-in type for {value:?} is invalid",
        /// An argument or a result that is not a struct has no binding.
        MissingBinding = sys::NAGA_CHECK_VARYING_ERROR_MISSING_BINDING
            => "Entry point arguments and return values must all have bindings",
        /// The member of this index has no binding.
        MemberMissingBinding(index: u64) = sys::NAGA_CHECK_VARYING_ERROR_MEMBER_MISSING_BINDING
            => "Struct member {index} is missing a binding",
        /// An earlier input, or an earlier output, has the same location.
        BindingCollision {
            /// The location.
            location: u32,
        } = sys::NAGA_CHECK_VARYING_ERROR_BINDING_COLLISION => "Multiple bindings at location {location} are present",
        /// An earlier input, or an earlier output, is the same built-in value.
        DuplicateBuiltIn(value: BuiltIn) = sys::NAGA_CHECK_VARYING_ERROR_DUPLICATE_BUILT_IN
            => "Built-in {value:?} is present more than once",
        /// The binding needs a capability that isn't given.
        UnsupportedCapability(capability: Capabilities) = sys::NAGA_CHECK_VARYING_ERROR_UNSUPPORTED_CAPABILITY
            => "Capability {capability:?} is not supported",
        /// A source of blending is an input of this stage, and not an output.
        InvalidInputAttributeInStage(stage: ShaderStage) = sys::NAGA_CHECK_VARYING_ERROR_INVALID_INPUT_ATTRIBUTE_IN_STAGE
            => "A blend source is only valid as an output for stage {stage:?}",
        /// This stage has no sources of blending.
        InvalidAttributeInStage(stage: ShaderStage) = sys::NAGA_CHECK_VARYING_ERROR_INVALID_ATTRIBUTE_IN_STAGE
            => "A blend source is not valid for stage {stage:?}",
        /// The place of an invocation among subgroups is only defined in workgroups of one dimension.
        InvalidMultiDimensionalSubgroupBuiltIn
            = sys::NAGA_CHECK_VARYING_ERROR_INVALID_MULTI_DIMENSIONAL_SUBGROUP_BUILT_IN
            => "Workgroup size is multi dimensional, so built-in values of subgroups are not supported",
        /// A value of each primitive is not an input of a fragment shader.
        InvalidPerPrimitive = sys::NAGA_CHECK_VARYING_ERROR_INVALID_PER_PRIMITIVE
            => "Values of each primitive can only be inputs of fragment shaders",
    }
}

errors! {
    /// Why a literal is refused.
    pub enum LiteralError {
        /// The width of its scalar is not allowed.
        Width(cause: WidthError) = sys::NAGA_CHECK_LITERAL_ERROR_WIDTH => "{cause}",
    }
}

errors! {
    /// Why a width of a scalar is refused.
    pub enum WidthError {
        /// No capability allows scalars of this kind the width.
        Invalid(kind: ScalarKind, width: u8) = sys::NAGA_CHECK_WIDTH_ERROR_INVALID
            => "The {kind:?} scalar width {width} is not supported",
        /// The width needs a capability.
        MissingCapability {
            /// The scalars, whose name naga shows.
            name: Scalar,
            /// The capability.
            flag: Capabilities,
        } = sys::NAGA_CHECK_WIDTH_ERROR_MISSING_CAPABILITY
            => "Using `{}` values requires the `naga::valid::Capabilities::{}` flag" (name_of(*name), flag_of(*flag)),
        /// Only constant expressions have abstract scalars (WGSL "Abstract Numeric Types").
        Abstract = sys::NAGA_CHECK_WIDTH_ERROR_ABSTRACT
            => "Abstract types may only appear in constant expressions",
    }
}

errors! {
    /// Why a value can't be composed.
    pub enum ComposeError {
        /// Values of the type aren't composed.
        Type(ty: Handle<Type>) = sys::NAGA_CHECK_COMPOSE_ERROR_TYPE
            => "Composing of type {ty:?} can't be done",
        /// The components are too few or too many.
        ComponentCount {
            /// How many there are; of a vector, how many components of it they make.
            given: u32,
            /// How many the type has.
            expected: u32,
        } = sys::NAGA_CHECK_COMPOSE_ERROR_COMPONENT_COUNT
            => "Composing expects {expected} components but {given} were given",
        /// A component has the wrong type.
        ComponentType {
            /// The place of the component, from 0.
            index: u32,
        } = sys::NAGA_CHECK_COMPOSE_ERROR_COMPONENT_TYPE
            => "Composing {index}'s component type is not expected",
    }
}

errors! {
    /// Why an expression has no type.
    pub enum ResolveError {
        /// The types of the operands don't fit the expression.
        IncompatibleOperands = sys::NAGA_CHECK_RESOLVE_ERROR_INCOMPATIBLE_OPERANDS => "Incompatible operands",
        /// The typing doesn't support this variant of expressions.
        NotResolvable = sys::NAGA_CHECK_RESOLVE_ERROR_NOT_RESOLVABLE
            => "The type of the expression can't be resolved",
    }
}

errors! {
    /// Why a value has no length.
    pub enum IndexableLengthError {
        /// It is neither a vector, matrix, array or binding array, nor a pointer to one.
        TypeNotIndexable = sys::NAGA_CHECK_INDEXABLE_LENGTH_ERROR_TYPE_NOT_INDEXABLE
            => "Type is not indexable, and has no length (validation error)",
        /// The override that gives the number of elements has no initialiser that is an index constant above 0.
        InvalidArrayLength = sys::NAGA_CHECK_INDEXABLE_LENGTH_ERROR_INVALID_ARRAY_LENGTH
            => "Array length is not a positive constant",
    }
}

errors! {
    /// Why a type has no layout for the uniform or the storage address space (WGSL "Alignment and Size", "Address Space
    /// Layout Constraints").
    pub enum Disalignment {
        /// An array's stride is not a multiple of the alignment that the array needs.
        ArrayStride = sys::NAGA_CHECK_DISALIGNMENT_ARRAY_STRIDE
            => "The array stride is not a multiple of the required alignment",
        /// A struct's span is not a multiple of the struct's alignment.
        StructSpan = sys::NAGA_CHECK_DISALIGNMENT_STRUCT_SPAN
            => "The struct span is not a multiple of the required alignment",
        /// A member's offset is not a multiple of the alignment that the member needs.
        MemberOffset = sys::NAGA_CHECK_DISALIGNMENT_MEMBER_OFFSET
            => "A struct member's offset is not a multiple of the required alignment",
        /// A member follows a struct, and begins before that struct's size rounded up to 16 bytes ends.
        MemberOffsetAfterStruct = sys::NAGA_CHECK_DISALIGNMENT_MEMBER_OFFSET_AFTER_STRUCT
            => "A struct member's offset is too close to the struct before it",
        /// A member of a uniform struct has no fixed size.
        UnsizedMember = sys::NAGA_CHECK_DISALIGNMENT_UNSIZED_MEMBER => "A struct member is not statically sized",
        /// Hosts can't share values of the type (WGSL "Host-shareable Types").
        NonHostShareable = sys::NAGA_CHECK_DISALIGNMENT_NON_HOST_SHAREABLE => "The type is not host-shareable",
    }
}

/// What images are called in an error.
fn images(arrayed: bool) -> &'static str {
    if arrayed {
        "Arrayed images"
    } else {
        "Images"
    }
}

/// The name of scalars that need a capability.
fn name_of(scalar: Scalar) -> &'static str {
    match scalar {
        Scalar::F64 => "f64",
        Scalar::F16 => "f16",
        Scalar::I64 => "i64",
        Scalar::I16 => "i16",
        Scalar::U64 => "u64",
        Scalar::U16 => "u16",
        _ => "scalar",
    }
}

/// The name of a capability that scalars need.
fn flag_of(capability: Capabilities) -> &'static str {
    match capability {
        Capabilities::FLOAT64 => "FLOAT64",
        Capabilities::SHADER_FLOAT16 => "SHADER_FLOAT16",
        Capabilities::SHADER_INT64 => "SHADER_INT64",
        Capabilities::SHADER_INT16 => "SHADER_INT16",
        _ => "capability",
    }
}

impl Disalignment {
    /// Why there is no layout, by the number of the error.
    pub(crate) fn of_number(number: u32) -> Option<Disalignment> {
        Disalignment::tell(&mut Told::of_number(&number))
    }
}
