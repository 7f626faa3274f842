//! Types of a module, as in naga.

use crate::bindings::{Binding, OptionalBinding};
use crate::module::Override;
use crate::operands::{builders, items, sums_of_bits, words_of_values, Handle, Operand};
use crate::storage_format::StorageFormat;
use crate::sys;
use std::num::NonZeroU32;

/// What the bits of a scalar mean.
#[derive(Clone, Copy, Debug, PartialEq, Eq, Hash)]
#[non_exhaustive]
#[repr(u32)]
pub enum ScalarKind {
    /// Signed integers.
    Sint = sys::NAGA_CHECK_KIND_SINT,
    /// Unsigned integers.
    Uint = sys::NAGA_CHECK_KIND_UINT,
    /// Floating-point numbers.
    Float = sys::NAGA_CHECK_KIND_FLOAT,
    /// Bools.
    Bool = sys::NAGA_CHECK_KIND_BOOL,
    /// WGSL's abstract integers, which only constant expressions have.
    AbstractInt = sys::NAGA_CHECK_KIND_ABSTRACT_INT,
    /// WGSL's abstract floating-point numbers, which only constant expressions have.
    AbstractFloat = sys::NAGA_CHECK_KIND_ABSTRACT_FLOAT,
}

/// A scalar type.
#[derive(Clone, Copy, Debug, PartialEq, Eq, Hash)]
pub struct Scalar {
    /// What the bits mean.
    pub kind: ScalarKind,
    /// The size of a value, in bytes.
    pub width: u8,
}

impl Scalar {
    /// Bools.
    pub const BOOL: Scalar = Scalar::new(ScalarKind::Bool, 1);
    /// Signed integers of two bytes.
    pub const I16: Scalar = Scalar::new(ScalarKind::Sint, 2);
    /// Unsigned integers of two bytes.
    pub const U16: Scalar = Scalar::new(ScalarKind::Uint, 2);
    /// Signed integers of four bytes.
    pub const I32: Scalar = Scalar::new(ScalarKind::Sint, 4);
    /// Unsigned integers of four bytes.
    pub const U32: Scalar = Scalar::new(ScalarKind::Uint, 4);
    /// Signed integers of eight bytes.
    pub const I64: Scalar = Scalar::new(ScalarKind::Sint, 8);
    /// Unsigned integers of eight bytes.
    pub const U64: Scalar = Scalar::new(ScalarKind::Uint, 8);
    /// Floating-point numbers of two bytes.
    pub const F16: Scalar = Scalar::new(ScalarKind::Float, 2);
    /// Floating-point numbers of four bytes.
    pub const F32: Scalar = Scalar::new(ScalarKind::Float, 4);
    /// Floating-point numbers of eight bytes.
    pub const F64: Scalar = Scalar::new(ScalarKind::Float, 8);
    /// WGSL's abstract integers.
    pub const ABSTRACT_INT: Scalar = Scalar::new(ScalarKind::AbstractInt, 8);
    /// WGSL's abstract floating-point numbers.
    pub const ABSTRACT_FLOAT: Scalar = Scalar::new(ScalarKind::AbstractFloat, 8);

    /// The scalars of a kind, of so many bytes.
    #[must_use]
    pub const fn new(kind: ScalarKind, width: u8) -> Scalar {
        Scalar { kind, width }
    }
}

impl Operand for Scalar {
    fn write(&self, words: &mut Vec<u32>) {
        self.kind.write(words);
        words.push(u32::from(self.width));
    }
}

/// How many components a vector has, or a matrix columns or rows.
#[derive(Clone, Copy, Debug, PartialEq, Eq, Hash)]
#[repr(u32)]
pub enum VectorSize {
    /// Two.
    Bi = 2,
    /// Three.
    Tri = 3,
    /// Four.
    Quad = 4,
}

/// The components of a pointer's target: of a vector, or of a scalar if there is no size.
struct PointedSize(Option<VectorSize>);

impl Operand for PointedSize {
    fn write(&self, words: &mut Vec<u32>) {
        words.push(self.0.map_or(0, |size| size as u32));
    }
}

/// How many columns or rows a cooperative matrix has.
#[derive(Clone, Copy, Debug, PartialEq, Eq, Hash)]
#[non_exhaustive]
#[repr(u32)]
pub enum CooperativeSize {
    /// Eight.
    Eight = 8,
    /// Sixteen.
    Sixteen = 16,
}

/// Which operand of a multiplication `a * b + c` a cooperative matrix may be.
#[derive(Clone, Copy, Debug, PartialEq, Eq, Hash)]
#[repr(u32)]
pub enum CooperativeRole {
    /// The left factor.
    A = sys::NAGA_CHECK_ROLE_A,
    /// The right factor.
    B = sys::NAGA_CHECK_ROLE_B,
    /// The summand, and the result.
    C = sys::NAGA_CHECK_ROLE_C,
}

/// How many elements an array has.
#[derive(Clone, Copy, Debug, PartialEq, Eq, Hash)]
#[non_exhaustive]
pub enum ArraySize {
    /// That many.
    Constant(NonZeroU32),
    /// As many as the value of an override, which is given when a pipeline is made.
    Pending(Handle<Override>),
    /// As many as the buffer has room for.
    Dynamic,
}

impl Operand for ArraySize {
    fn write(&self, words: &mut Vec<u32>) {
        words.extend(match self {
            ArraySize::Constant(count) => [sys::NAGA_CHECK_LENGTH_CONSTANT, count.get()],
            ArraySize::Pending(by) => [sys::NAGA_CHECK_LENGTH_OVERRIDE, by.index()],
            ArraySize::Dynamic => [sys::NAGA_CHECK_LENGTH_RUNTIME, 0],
        });
    }
}

/// A member of a struct.
#[derive(Clone, Debug, PartialEq, Eq, Hash)]
#[non_exhaustive]
pub struct StructMember {
    /// The name, if the member has one.
    pub name: Option<String>,
    /// The type.
    pub ty: Handle<Type>,
    /// Where an input or output of the shader comes from or goes to.
    pub binding: Option<Binding>,
    /// The place of the first byte from the start of the struct, in bytes.
    pub offset: u32,
}

impl StructMember {
    /// A member without a name and a binding.
    #[must_use]
    pub const fn at(offset: u32, ty: Handle<Type>) -> StructMember {
        StructMember {
            name: None,
            ty,
            binding: None,
            offset,
        }
    }
}

builders! {
    StructMember {
        /// Sets the name.
        named(name: impl Into<String>),
        /// Sets where an input or output of the shader comes from or goes to.
        with_binding(binding: Binding),
    }
}

impl Operand for StructMember {
    fn write(&self, words: &mut Vec<u32>) {
        self.name.write(words);
        self.ty.write(words);
        self.offset.write(words);
        OptionalBinding(self.binding).write(words);
    }
}

/// How many coordinates an image has.
#[derive(Clone, Copy, Debug, PartialEq, Eq, Hash)]
#[non_exhaustive]
#[repr(u32)]
pub enum ImageDimension {
    /// One.
    D1 = sys::NAGA_CHECK_DIMENSION_1D,
    /// Two.
    D2 = sys::NAGA_CHECK_DIMENSION_2D,
    /// Three.
    D3 = sys::NAGA_CHECK_DIMENSION_3D,
    /// Three, which are a direction.
    Cube = sys::NAGA_CHECK_DIMENSION_CUBE,
}

words_of_values!(
    ScalarKind,
    VectorSize,
    CooperativeSize,
    CooperativeRole,
    ImageDimension
);

/// What storage may be used for: naga's `StorageAccess`.
///
/// ```
/// use naga_check::StorageAccess;
///
/// let access = StorageAccess::LOAD | StorageAccess::STORE;
/// assert!(access.load && access.store && !access.atomic);
/// ```
#[derive(Clone, Copy, Debug, Default, PartialEq, Eq, Hash)]
#[non_exhaustive]
pub struct StorageAccess {
    /// Values may be read.
    pub load: bool,
    /// Values may be written.
    pub store: bool,
    /// Atomic operations may change values.
    pub atomic: bool,
}

impl StorageAccess {
    /// Nothing.
    const EMPTY: StorageAccess = StorageAccess {
        load: false,
        store: false,
        atomic: false,
    };
    /// Values may be read.
    pub const LOAD: StorageAccess = StorageAccess {
        load: true,
        ..StorageAccess::EMPTY
    };
    /// Values may be written.
    pub const STORE: StorageAccess = StorageAccess {
        store: true,
        ..StorageAccess::EMPTY
    };
    /// Atomic operations may change values.
    pub const ATOMIC: StorageAccess = StorageAccess {
        atomic: true,
        ..StorageAccess::EMPTY
    };
}

sums_of_bits! {
    StorageAccess {
        load = sys::NAGA_CHECK_ACCESS_LOAD,
        store = sys::NAGA_CHECK_ACCESS_STORE,
        atomic = sys::NAGA_CHECK_ACCESS_ATOMIC,
    }
}

/// What an image holds.
#[derive(Clone, Copy, Debug, PartialEq, Eq, Hash)]
#[non_exhaustive]
pub enum ImageClass {
    /// Values that a sampler reads.
    Sampled {
        /// The kind of the components.
        kind: ScalarKind,
        /// Whether there are several samples of each.
        multi: bool,
    },
    /// Depths.
    Depth {
        /// Whether there are several samples of each.
        multi: bool,
    },
    /// Values that the shader reads and writes.
    Storage {
        /// The format.
        format: StorageFormat,
        /// What the image may be used for.
        access: StorageAccess,
    },
    /// An external texture, such as a frame of a video.
    External,
}

impl Operand for ImageClass {
    fn write(&self, words: &mut Vec<u32>) {
        words.extend(match *self {
            ImageClass::Sampled { kind, multi } => {
                [sys::NAGA_CHECK_CLASS_SAMPLED, kind as u32, u32::from(multi)]
            }
            ImageClass::Depth { multi } => [sys::NAGA_CHECK_CLASS_DEPTH, u32::from(multi), 0],
            ImageClass::Storage { format, access } => {
                [sys::NAGA_CHECK_CLASS_STORAGE, format as u32, access.word()]
            }
            ImageClass::External => [sys::NAGA_CHECK_CLASS_EXTERNAL, 0, 0],
        });
    }
}

/// Where a variable is kept (WGSL, "Address Spaces").
#[derive(Clone, Copy, Debug, PartialEq, Eq, Hash)]
#[non_exhaustive]
pub enum AddressSpace {
    /// In a function.
    Function,
    /// In an invocation.
    Private,
    /// In a workgroup, shared by its invocations.
    WorkGroup,
    /// In a buffer that shaders only read.
    Uniform,
    /// In a buffer.
    Storage {
        /// What the buffer may be used for.
        access: StorageAccess,
    },
    /// Nowhere: an image or a sampler.
    Handle,
    /// Among the immediate data of a pipeline.
    Immediate,
    /// In what a task shader hands to its mesh shaders.
    TaskPayload,
    /// In what a ray hands to the shaders that it calls.
    RayPayload,
    /// In what the ray handed on that called this shader.
    IncomingRayPayload,
}

impl Operand for AddressSpace {
    fn write(&self, words: &mut Vec<u32>) {
        words.extend(match self {
            AddressSpace::Function => [sys::NAGA_CHECK_SPACE_FUNCTION, 0],
            AddressSpace::Private => [sys::NAGA_CHECK_SPACE_PRIVATE, 0],
            AddressSpace::WorkGroup => [sys::NAGA_CHECK_SPACE_WORKGROUP, 0],
            AddressSpace::Uniform => [sys::NAGA_CHECK_SPACE_UNIFORM, 0],
            AddressSpace::Storage { access } => [sys::NAGA_CHECK_SPACE_STORAGE, access.word()],
            AddressSpace::Handle => [sys::NAGA_CHECK_SPACE_HANDLE, 0],
            AddressSpace::Immediate => [sys::NAGA_CHECK_SPACE_IMMEDIATE, 0],
            AddressSpace::TaskPayload => [sys::NAGA_CHECK_SPACE_TASK_PAYLOAD, 0],
            AddressSpace::RayPayload => [sys::NAGA_CHECK_SPACE_RAY_PAYLOAD, 0],
            AddressSpace::IncomingRayPayload => [sys::NAGA_CHECK_SPACE_INCOMING_RAY_PAYLOAD, 0],
        });
    }
}

/// A type of a module.
#[derive(Clone, Debug, PartialEq, Eq, Hash)]
#[non_exhaustive]
pub struct Type {
    /// The name, if the type has one.
    pub name: Option<String>,
    /// What it is made of.
    pub inner: TypeInner,
}

/// A type without a name.
impl From<TypeInner> for Type {
    fn from(inner: TypeInner) -> Type {
        Type { name: None, inner }
    }
}

impl Type {
    /// A type without a name.
    #[must_use]
    pub const fn new(inner: TypeInner) -> Type {
        Type { name: None, inner }
    }
}

builders! {
    Type {
        /// Sets the name.
        named(name: impl Into<String>),
    }
}

impl Operand for Type {
    fn write(&self, words: &mut Vec<u32>) {
        self.name.write(words);
        self.inner.write(words);
    }
}

items! {
    /// What a type is made of.
    #[derive(Clone, Debug, PartialEq, Eq, Hash)]
    #[non_exhaustive]
    pub enum TypeInner {
        /// A number or a bool.
        Scalar(scalar: Scalar) = sys::NAGA_CHECK_OP_SCALAR [scalar],
        /// Scalars of one type, by their components.
        Vector {
            /// The number of components.
            size: VectorSize,
            /// The type of a component.
            scalar: Scalar,
        } = sys::NAGA_CHECK_OP_VECTOR [size, scalar],
        /// Scalars of one type, in columns and rows.
        Matrix {
            /// The number of columns.
            columns: VectorSize,
            /// The number of rows: the components of a column.
            rows: VectorSize,
            /// The type of a component.
            scalar: Scalar,
        } = sys::NAGA_CHECK_OP_MATRIX [columns, rows, scalar],
        /// A matrix that the invocations of a subgroup hold together.
        CooperativeMatrix {
            /// The number of columns.
            columns: CooperativeSize,
            /// The number of rows.
            rows: CooperativeSize,
            /// The type of a component.
            scalar: Scalar,
            /// Which operand of a multiplication it may be.
            role: CooperativeRole,
        } = sys::NAGA_CHECK_OP_COOPERATIVE_MATRIX [columns, rows, scalar, role],
        /// A scalar that invocations change one after another.
        Atomic(scalar: Scalar) = sys::NAGA_CHECK_OP_ATOMIC [scalar],
        /// A place that holds a value of another type.
        Pointer {
            /// The type of the value.
            base: Handle<Type>,
            /// Where the value is kept.
            space: AddressSpace,
        } = sys::NAGA_CHECK_OP_POINTER [base, space],
        /// A place that holds a scalar, or a vector if there is a size.
        ValuePointer {
            /// The number of components of the vector, if it holds one.
            size: Option<VectorSize>,
            /// The type of the scalar, or of a component.
            scalar: Scalar,
            /// Where the value is kept.
            space: AddressSpace,
        } = sys::NAGA_CHECK_OP_VALUE_POINTER [PointedSize(*size), scalar, space],
        /// Values of one type, one after another.
        Array {
            /// The type of an element.
            base: Handle<Type>,
            /// The number of elements.
            size: ArraySize,
            /// From the start of an element to the start of the next, in bytes.
            stride: u32,
        } = sys::NAGA_CHECK_OP_ARRAY [base, size, stride],
        /// Members, each with a type and an offset.
        Struct {
            /// The members, in the order of their declaration.
            members: Vec<StructMember>,
            /// The size, in bytes, with the padding at the end.
            span: u32,
        } = sys::NAGA_CHECK_OP_STRUCT [span, members],
        /// An image.
        Image {
            /// The number of coordinates.
            dim: ImageDimension,
            /// Whether it has several layers.
            arrayed: bool,
            /// What it holds.
            class: ImageClass,
        } = sys::NAGA_CHECK_OP_IMAGE [dim, arrayed, class],
        /// How an image is sampled.
        Sampler {
            /// Whether depths are compared.
            comparison: bool,
        } = sys::NAGA_CHECK_OP_SAMPLER [comparison],
        /// What rays are traced through.
        AccelerationStructure {
            /// Whether the corners of what was hit can be read.
            vertex_return: bool,
        } = sys::NAGA_CHECK_OP_ACCELERATION_STRUCTURE [vertex_return],
        /// A ray on its way.
        RayQuery {
            /// Whether the corners of what was hit can be read.
            vertex_return: bool,
        } = sys::NAGA_CHECK_OP_RAY_QUERY [vertex_return],
        /// Bindings of one type under one number.
        BindingArray {
            /// The type of a binding.
            base: Handle<Type>,
            /// The number of bindings.
            size: ArraySize,
        } = sys::NAGA_CHECK_OP_BINDING_ARRAY [base, size],
    }
}
