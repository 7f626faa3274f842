//! Why variables, declarations of functions and entry points are refused.

use crate::errors::VaryingError;
use crate::flags::{Capabilities, TypeFlags};
use crate::module::LocalVariable;
use crate::operands::Handle;
use crate::sys;
use crate::told::errors;
use crate::types::{AddressSpace, Scalar, Type};

/// An address space whose types need a layout: of naga's `AddressSpace` without what may be done with it, on which no
/// layout depends.
#[derive(Clone, Copy, Debug, PartialEq, Eq, Hash)]
#[non_exhaustive]
#[repr(u32)]
pub enum BufferSpace {
    /// Buffers that shaders only read.
    Uniform = sys::NAGA_CHECK_SPACE_UNIFORM,
    /// Other buffers.
    Storage = sys::NAGA_CHECK_SPACE_STORAGE,
}

errors! {
    /// Why a variable of a module is refused.
    pub enum GlobalVariableError {
        /// No variable of a module is in this address space, or none that is a binding array.
        InvalidUsage(space: AddressSpace) = sys::NAGA_CHECK_GLOBAL_VARIABLE_ERROR_INVALID_USAGE
            => "Usage isn't compatible with address space {space:?}",
        /// A variable in `Handle` is not an image, a sampler or an acceleration structure.
        InvalidType(space: AddressSpace) = sys::NAGA_CHECK_GLOBAL_VARIABLE_ERROR_INVALID_TYPE
            => "Type isn't compatible with address space {space:?}",
        /// Never returned: the rule of types refuses such binding arrays.
        InvalidBindingArray(ty: Handle<Type>) = sys::NAGA_CHECK_GLOBAL_VARIABLE_ERROR_INVALID_BINDING_ARRAY
            => "Type {ty:?} isn't compatible with binding arrays",
        /// The type may not be used for all that the address space requires (WGSL "Address Spaces").
        MissingTypeFlags {
            /// What the address space requires.
            required: TypeFlags,
            /// What the type may be used for.
            seen: TypeFlags,
        } = sys::NAGA_CHECK_GLOBAL_VARIABLE_ERROR_MISSING_TYPE_FLAGS
            => "Type flags {seen:?} do not meet the required {required:?}",
        /// The variable needs a capability that isn't given.
        UnsupportedCapability(capability: Capabilities)
            = sys::NAGA_CHECK_GLOBAL_VARIABLE_ERROR_UNSUPPORTED_CAPABILITY
            => "Capability {capability:?} is not supported",
        /// A resource has no binding, or another variable has one (WGSL "Resource Interface").
        InvalidBinding = sys::NAGA_CHECK_GLOBAL_VARIABLE_ERROR_INVALID_BINDING
            => "Binding decoration is missing or not applicable",
        /// Hosts can't share values of the type in this address space, because of this type inside it and its layout
        /// (WGSL "Address Space Layout Constraints").
        Alignment(space: BufferSpace, ty: Handle<Type>, source: AlignmentError)
            = sys::NAGA_CHECK_GLOBAL_VARIABLE_ERROR_ALIGNMENT
            => "Alignment requirements for address space {space:?} are not met by {ty:?}",
        /// The value of the initialiser is not known when a pipeline is created.
        InitializerExprType = sys::NAGA_CHECK_GLOBAL_VARIABLE_ERROR_INITIALIZER_EXPR_TYPE
            => "Initializer must be an override-expression",
        /// The initialiser has another type than the variable.
        InitializerType = sys::NAGA_CHECK_GLOBAL_VARIABLE_ERROR_INITIALIZER_TYPE
            => "Initializer doesn't match the variable type",
        /// Variables in this address space have no initialiser (WGSL "var Declarations").
        InitializerNotAllowed(space: AddressSpace) = sys::NAGA_CHECK_GLOBAL_VARIABLE_ERROR_INITIALIZER_NOT_ALLOWED
            => "Initializer can't be used with address space {space:?}",
        /// A variable in `Storage` can't be loaded from.
        StorageAddressSpaceWriteOnlyNotSupported
            = sys::NAGA_CHECK_GLOBAL_VARIABLE_ERROR_STORAGE_ADDRESS_SPACE_WRITE_ONLY_NOT_SUPPORTED
            => "Storage address space doesn't support write-only access",
        /// Immediates can't hold the type.
        InvalidImmediateType(cause: ImmediateError) = sys::NAGA_CHECK_GLOBAL_VARIABLE_ERROR_INVALID_IMMEDIATE_TYPE
            => "Type is not valid for use as immediate data: {cause}",
        /// A variable outside of `Storage` is coherent or volatile.
        InvalidMemoryDecorationsAddressSpace
            = sys::NAGA_CHECK_GLOBAL_VARIABLE_ERROR_INVALID_MEMORY_DECORATIONS_ADDRESS_SPACE
            => "Memory decorations can only be used in the storage address space",
        /// Coherent variables need a capability that isn't given.
        CoherentNotSupported = sys::NAGA_CHECK_GLOBAL_VARIABLE_ERROR_COHERENT_NOT_SUPPORTED
            => "Coherent memory is not supported",
        /// Volatile variables need a capability that isn't given.
        VolatileNotSupported = sys::NAGA_CHECK_GLOBAL_VARIABLE_ERROR_VOLATILE_NOT_SUPPORTED
            => "Volatile memory is not supported",
    }
}

errors! {
    /// Why a type has no layout in the address space of a variable: naga's `Disalignment`, with what it holds. Sizes,
    /// offsets and alignments are in bytes.
    pub enum AlignmentError {
        /// An array's stride is not a multiple of the alignment that the array needs.
        ArrayStride {
            /// The stride.
            stride: u32,
            /// The alignment.
            alignment: u32,
        } = sys::NAGA_CHECK_DISALIGNMENT_ARRAY_STRIDE
            => "The array stride {stride} is not a multiple of the required alignment {alignment}",
        /// A struct's span is not a multiple of the struct's alignment.
        StructSpan {
            /// The span.
            span: u32,
            /// The alignment.
            alignment: u32,
        } = sys::NAGA_CHECK_DISALIGNMENT_STRUCT_SPAN
            => "The struct span {span}, is not a multiple of the required alignment {alignment}",
        /// A member's offset is not a multiple of the alignment that the member needs.
        MemberOffset {
            /// The member, from 0.
            index: u32,
            /// Its offset.
            offset: u32,
            /// The alignment.
            alignment: u32,
        } = sys::NAGA_CHECK_DISALIGNMENT_MEMBER_OFFSET
            => "The struct member[{index}] offset {offset} is not a multiple of the required alignment {alignment}",
        /// A member follows a struct, and begins before that struct's size rounded up to 16 bytes ends.
        MemberOffsetAfterStruct {
            /// The member, from 0.
            index: u32,
            /// Its offset.
            offset: u32,
            /// The least offset that the member may have.
            expected: u32,
        } = sys::NAGA_CHECK_DISALIGNMENT_MEMBER_OFFSET_AFTER_STRUCT
            => "The struct member[{index}] offset {offset} must be at least {expected}",
        /// A member of a uniform struct has no fixed size.
        UnsizedMember {
            /// The member, from 0.
            index: u32,
        } = sys::NAGA_CHECK_DISALIGNMENT_UNSIZED_MEMBER => "The struct member[{index}] is not statically sized",
        /// Hosts can't share values of the type (WGSL "Host-shareable Types").
        NonHostShareable = sys::NAGA_CHECK_DISALIGNMENT_NON_HOST_SHAREABLE => "The type is not host-shareable",
    }
}

errors! {
    /// Why immediates can't hold a type.
    pub enum ImmediateError {
        /// The scalar, of which the type is made, has 16 bits.
        InvalidScalar(scalar: Scalar) = sys::NAGA_CHECK_IMMEDIATE_ERROR_INVALID_SCALAR
            => "The scalar type {scalar:?} is not supported in immediates",
    }
}

errors! {
    /// Why a variable of a function is refused.
    pub enum LocalVariableError {
        /// The type is not constructible (WGSL "Constructible Types").
        InvalidType(ty: Handle<Type>) = sys::NAGA_CHECK_LOCAL_VARIABLE_ERROR_INVALID_TYPE
            => "Local variable has a type {ty:?} that can't be stored in a local variable",
        /// The initialiser has another type than the variable.
        InitializerType = sys::NAGA_CHECK_LOCAL_VARIABLE_ERROR_INITIALIZER_TYPE
            => "Initializer doesn't match the variable type",
        /// The value of the initialiser is not known when a pipeline is created.
        NonConstOrOverrideInitializer = sys::NAGA_CHECK_LOCAL_VARIABLE_ERROR_NON_CONST_OR_OVERRIDE_INITIALIZER
            => "Initializer is not a const or override expression",
    }
}

errors! {
    /// Why the local variables, the arguments or the result of a function are refused: the variants of naga's
    /// `FunctionError` that these give. An index counts arguments, from 0.
    pub enum FunctionDeclarationError {
        /// A local variable breaks its rule.
        LocalVariable {
            /// The variable.
            handle: Handle<LocalVariable>,
            /// Which rule.
            source: LocalVariableError,
        } = sys::NAGA_CHECK_FUNCTION_DECLARATION_ERROR_LOCAL_VARIABLE => "Local variable {handle:?} is invalid",
        /// An argument is a pointer into an address space that pointers can't be passed into (WGSL "Function
        /// Restrictions").
        InvalidArgumentPointerSpace {
            /// The argument.
            index: u64,
            /// The pointer's space.
            space: AddressSpace,
        } = sys::NAGA_CHECK_FUNCTION_DECLARATION_ERROR_INVALID_ARGUMENT_POINTER_SPACE
            => "Argument at index {index} is a pointer of space {space:?}, which can't be passed into functions",
        /// Functions can't take values of the type of an argument.
        InvalidArgumentType {
            /// The argument.
            index: u64,
        } = sys::NAGA_CHECK_FUNCTION_DECLARATION_ERROR_INVALID_ARGUMENT_TYPE
            => "Argument at index {index} has a type that can't be passed into functions",
        /// An argument has a binding, and the function is not an entry point's.
        PipelineInputRegularFunction {
            /// The argument.
            index: u64,
        } = sys::NAGA_CHECK_FUNCTION_DECLARATION_ERROR_PIPELINE_INPUT_REGULAR_FUNCTION
            => "Argument at index {index} has a binding, but its function is not an entry point",
        /// The type of the result is not constructible (WGSL "Constructible Types").
        NonConstructibleReturnType = sys::NAGA_CHECK_FUNCTION_DECLARATION_ERROR_NON_CONSTRUCTIBLE_RETURN_TYPE
            => "The function's given return type cannot be returned from functions",
        /// The result has a binding, and the function is not an entry point's.
        PipelineOutputRegularFunction = sys::NAGA_CHECK_FUNCTION_DECLARATION_ERROR_PIPELINE_OUTPUT_REGULAR_FUNCTION
            => "The result has a binding, but its function is not an entry point",
    }
}

errors! {
    /// Why an entry point is refused.
    pub enum EntryPointError {
        /// An earlier entry point of the same stage has the same name.
        Conflict = sys::NAGA_CHECK_ENTRY_POINT_ERROR_CONFLICT => "Multiple conflicting entry points",
        /// The outputs of a vertex shader lack the position of the vertex (WGSL "position").
        MissingVertexOutputPosition = sys::NAGA_CHECK_ENTRY_POINT_ERROR_MISSING_VERTEX_OUTPUT_POSITION
            => "Vertex shaders must return a `@builtin(position)` output value",
        /// Depths are tested early for a shader that is not a fragment shader.
        UnexpectedEarlyDepthTest = sys::NAGA_CHECK_ENTRY_POINT_ERROR_UNEXPECTED_EARLY_DEPTH_TEST
            => "Early depth test is not applicable",
        /// A shader of a stage without workgroups has the size of one.
        UnexpectedWorkgroupSize = sys::NAGA_CHECK_ENTRY_POINT_ERROR_UNEXPECTED_WORKGROUP_SIZE
            => "Workgroup size is not applicable",
        /// A workgroup has no invocation or more than 16384 in one of its dimensions.
        OutOfRangeWorkgroupSize = sys::NAGA_CHECK_ENTRY_POINT_ERROR_OUT_OF_RANGE_WORKGROUP_SIZE
            => "Workgroup size is out of range",
        /// The function uses operations that the stage doesn't have.
        ForbiddenStageOperations = sys::NAGA_CHECK_ENTRY_POINT_ERROR_FORBIDDEN_STAGE_OPERATIONS
            => "Uses operations forbidden at this stage",
        /// The argument of this index is refused as an input.
        Argument(index: u64, cause: VaryingError) = sys::NAGA_CHECK_ENTRY_POINT_ERROR_ARGUMENT
            => "Argument {index} varying error: {cause}",
        /// The result is refused as an output, or an early test of depths needs a capability.
        Result(cause: VaryingError) = sys::NAGA_CHECK_ENTRY_POINT_ERROR_RESULT => "Result varying error: {cause}",
        /// The declarations of the function are refused.
        Function(cause: FunctionDeclarationError) = sys::NAGA_CHECK_ENTRY_POINT_ERROR_FUNCTION => "{cause}",
        /// The stage isn't known, or its rules are not covered: the stages of meshes and rays.
        StageNotCovered = sys::NAGA_CHECK_ENTRY_POINT_ERROR_STAGE_NOT_COVERED
            => "Entry points of this stage are not validated",
    }
}
