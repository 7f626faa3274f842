//! How errors are read from what a call wrote of them: their numbers, and the values that they hold.

use crate::bindings::{Interpolation, Sampling};
use crate::built_in::BuiltIn;
use crate::declaration_errors::BufferSpace;
use crate::expressions::SwizzleComponent;
use crate::flags::{Capabilities, TypeFlags};
use crate::operands::Handle;
use crate::operators::{BinaryOperator, MathFunction, UnaryOperator};
use crate::stages::ShaderStage;
use crate::storage_format::StorageFormat;
use crate::sys::{self, NagaCheckOutcome};
use crate::types::{
    AddressSpace, ImageClass, ImageDimension, Scalar, ScalarKind, StorageAccess, VectorSize,
};
use std::fmt;

/// What is left to read of an error, and of the errors within it.
pub(crate) struct Told<'a> {
    kind: u32,
    errors: &'a [u32],
    values: &'a [u64],
}

impl<'a> Told<'a> {
    /// What an outcome says of the error of its stage.
    pub(crate) fn of_outcome(outcome: &'a NagaCheckOutcome) -> Told<'a> {
        Told {
            kind: outcome.kind,
            errors: &outcome.errors,
            values: &outcome.values,
        }
    }

    /// An error that holds nothing.
    pub(crate) fn of_number(number: &'a u32) -> Told<'a> {
        Told {
            kind: sys::NAGA_CHECK_ITEM_KIND_NONE,
            errors: std::slice::from_ref(number),
            values: &[],
        }
    }

    /// The number of the next error.
    pub(crate) fn next_error(&mut self) -> Option<u32> {
        let (first, rest) = self.errors.split_first()?;
        self.errors = rest;
        Some(*first)
    }

    /// The next value.
    fn next_value(&mut self) -> Option<u64> {
        let (first, rest) = self.values.split_first()?;
        self.values = rest;
        Some(*first)
    }

    /// The next value, of 32 bits.
    fn next_word(&mut self) -> Option<u32> {
        u32::try_from(self.next_value()?).ok()
    }
}

/// What is read of an error.
pub(crate) trait Tell: Sized {
    /// Reads it, if this crate knows its numbers.
    fn tell(told: &mut Told<'_>) -> Option<Self>;
}

impl Tell for u8 {
    fn tell(told: &mut Told<'_>) -> Option<u8> {
        u8::try_from(told.next_value()?).ok()
    }
}

impl Tell for u32 {
    fn tell(told: &mut Told<'_>) -> Option<u32> {
        told.next_word()
    }
}

impl Tell for u64 {
    fn tell(told: &mut Told<'_>) -> Option<u64> {
        told.next_value()
    }
}

impl Tell for bool {
    fn tell(told: &mut Told<'_>) -> Option<bool> {
        match told.next_value()? {
            0 => Some(false),
            1 => Some(true),
            _ => None,
        }
    }
}

impl<T> Tell for Handle<T> {
    fn tell(told: &mut Told<'_>) -> Option<Handle<T>> {
        let index = told.next_word()?;
        (index != sys::NAGA_CHECK_NONE).then(|| Handle::new(index))
    }
}

impl Tell for Capabilities {
    fn tell(told: &mut Told<'_>) -> Option<Capabilities> {
        told.next_value().map(Capabilities::from_bits)
    }
}

impl Tell for TypeFlags {
    fn tell(told: &mut Told<'_>) -> Option<TypeFlags> {
        told.next_word().map(TypeFlags::from_bits)
    }
}

impl Tell for BuiltIn {
    fn tell(told: &mut Told<'_>) -> Option<BuiltIn> {
        let number = told.next_word()?;
        BuiltIn::ALL.into_iter().find(|it| it.number() == number)
    }
}

impl Tell for Scalar {
    fn tell(told: &mut Told<'_>) -> Option<Scalar> {
        Some(Scalar {
            kind: ScalarKind::tell(told)?,
            width: u8::tell(told)?,
        })
    }
}

impl Tell for StorageAccess {
    fn tell(told: &mut Told<'_>) -> Option<StorageAccess> {
        let word = told.next_word()?;
        let access = StorageAccess {
            load: word & sys::NAGA_CHECK_ACCESS_LOAD != 0,
            store: word & sys::NAGA_CHECK_ACCESS_STORE != 0,
            atomic: word & sys::NAGA_CHECK_ACCESS_ATOMIC != 0,
        };
        (access.word() == word).then_some(access)
    }
}

/// Its number, and the two words after it.
impl Tell for ImageClass {
    fn tell(told: &mut Told<'_>) -> Option<ImageClass> {
        let number = told.next_word()?;
        let class = match number {
            sys::NAGA_CHECK_CLASS_SAMPLED => ImageClass::Sampled {
                kind: ScalarKind::tell(told)?,
                multi: bool::tell(told)?,
            },
            sys::NAGA_CHECK_CLASS_DEPTH => ImageClass::Depth {
                multi: bool::tell(told)?,
            },
            sys::NAGA_CHECK_CLASS_STORAGE => ImageClass::Storage {
                format: StorageFormat::tell(told)?,
                access: StorageAccess::tell(told)?,
            },
            sys::NAGA_CHECK_CLASS_EXTERNAL => ImageClass::External,
            _ => return None,
        };
        let unused = match class {
            ImageClass::Sampled { .. } | ImageClass::Storage { .. } => 0,
            ImageClass::Depth { .. } => 1,
            ImageClass::External => 2,
        };
        for _ in 0..unused {
            told.next_word()?;
        }
        Some(class)
    }
}

/// Its number, and what may be done with it.
impl Tell for AddressSpace {
    fn tell(told: &mut Told<'_>) -> Option<AddressSpace> {
        let number = told.next_word()?;
        let access = StorageAccess::tell(told)?;
        Some(match number {
            sys::NAGA_CHECK_SPACE_FUNCTION => AddressSpace::Function,
            sys::NAGA_CHECK_SPACE_PRIVATE => AddressSpace::Private,
            sys::NAGA_CHECK_SPACE_WORKGROUP => AddressSpace::WorkGroup,
            sys::NAGA_CHECK_SPACE_UNIFORM => AddressSpace::Uniform,
            sys::NAGA_CHECK_SPACE_STORAGE => AddressSpace::Storage { access },
            sys::NAGA_CHECK_SPACE_HANDLE => AddressSpace::Handle,
            sys::NAGA_CHECK_SPACE_IMMEDIATE => AddressSpace::Immediate,
            sys::NAGA_CHECK_SPACE_TASK_PAYLOAD => AddressSpace::TaskPayload,
            sys::NAGA_CHECK_SPACE_RAY_PAYLOAD => AddressSpace::RayPayload,
            sys::NAGA_CHECK_SPACE_INCOMING_RAY_PAYLOAD => AddressSpace::IncomingRayPayload,
            _ => return None,
        })
    }
}

/// Reads enums by the numbers of their variants.
macro_rules! tell_by_number {
    ($($name:ident { $($variant:ident)+ })+) => {
        $(
            impl Tell for $name {
                fn tell(told: &mut Told<'_>) -> Option<$name> {
                    let number = told.next_word()?;
                    [$($name::$variant),+].into_iter().find(|it| *it as u32 == number)
                }
            }
        )+
    };
}

tell_by_number! {
    BufferSpace { Uniform Storage }
    Interpolation { Perspective Linear Flat PerVertex }
    Sampling { Center Centroid Sample First Either }
    ShaderStage { Vertex Task Mesh Fragment Compute RayGeneration Miss AnyHit ClosestHit }
    ScalarKind { Sint Uint Float Bool AbstractInt AbstractFloat }
    VectorSize { Bi Tri Quad }
    ImageDimension { D1 D2 D3 Cube }
    SwizzleComponent { X Y Z W }
    UnaryOperator { Negate LogicalNot BitwiseNot }
    BinaryOperator {
        Add Subtract Multiply Divide Modulo Equal NotEqual Less LessEqual Greater GreaterEqual And ExclusiveOr
        InclusiveOr LogicalAnd LogicalOr ShiftLeft ShiftRight
    }
    MathFunction {
        Abs Min Max Clamp Saturate Cos Cosh Sin Sinh Tan Tanh Acos Asin Atan Atan2 Asinh Acosh Atanh Radians Degrees
        Ceil Floor Round Fract Trunc Exp Exp2 Log Log2 Pow Dot Cross Distance Length Normalize FaceForward Reflect
        Refract Sign Fma Mix Step SmoothStep Sqrt InverseSqrt Transpose Determinant QuantizeToF16 CountTrailingZeros
        CountLeadingZeros CountOneBits ReverseBits ExtractBits InsertBits FirstTrailingBit FirstLeadingBit
        Pack2x16float Unpack2x16float Modf Frexp Ldexp Dot4I8Packed Dot4U8Packed Outer Inverse Pack4x8snorm
        Pack4x8unorm Pack2x16snorm Pack2x16unorm Pack4xI8 Pack4xU8 Pack4xI8Clamp Pack4xU8Clamp Unpack4x8snorm
        Unpack4x8unorm Unpack2x16snorm Unpack2x16unorm Unpack4xI8 Unpack4xU8
    }
    StorageFormat {
        R8Unorm R8Snorm R8Uint R8Sint R16Uint R16Sint R16Float Rg8Unorm Rg8Snorm Rg8Uint Rg8Sint R32Uint R32Sint
        R32Float Rg16Uint Rg16Sint Rg16Float Rgba8Unorm Rgba8Snorm Rgba8Uint Rgba8Sint Bgra8Unorm Rgb10a2Uint
        Rgb10a2Unorm Rg11b10Ufloat R64Uint Rg32Uint Rg32Sint Rg32Float Rgba16Uint Rgba16Sint Rgba16Float Rgba32Uint
        Rgba32Sint Rgba32Float R16Unorm R16Snorm Rg16Unorm Rg16Snorm Rgba16Unorm Rgba16Snorm
    }
}

/// A kind of items of a module.
#[derive(Clone, Copy, Debug, PartialEq, Eq, Hash)]
#[non_exhaustive]
#[repr(u32)]
pub enum ItemKind {
    /// Types.
    Type = sys::NAGA_CHECK_ITEM_KIND_TYPE,
    /// Constants.
    Constant = sys::NAGA_CHECK_ITEM_KIND_CONSTANT,
    /// Overrides.
    Override = sys::NAGA_CHECK_ITEM_KIND_OVERRIDE,
    /// Variables of the module.
    GlobalVariable = sys::NAGA_CHECK_ITEM_KIND_GLOBAL_VARIABLE,
    /// Expressions, of the module or of a function.
    Expression = sys::NAGA_CHECK_ITEM_KIND_EXPRESSION,
    /// Variables of a function.
    LocalVariable = sys::NAGA_CHECK_ITEM_KIND_LOCAL_VARIABLE,
    /// Functions.
    Function = sys::NAGA_CHECK_ITEM_KIND_FUNCTION,
    /// Filters of diagnostics.
    DiagnosticFilterNode = sys::NAGA_CHECK_ITEM_KIND_DIAGNOSTIC_FILTER_NODE,
    /// Entry points.
    EntryPoint = sys::NAGA_CHECK_ITEM_KIND_ENTRY_POINT,
}

/// naga's name of the kind.
impl fmt::Display for ItemKind {
    fn fmt(&self, f: &mut fmt::Formatter<'_>) -> fmt::Result {
        fmt::Debug::fmt(self, f)
    }
}

/// The kind of the item that the outcome is about, which is not one of its values.
impl Tell for ItemKind {
    fn tell(told: &mut Told<'_>) -> Option<ItemKind> {
        [
            ItemKind::Type,
            ItemKind::Constant,
            ItemKind::Override,
            ItemKind::GlobalVariable,
            ItemKind::Expression,
            ItemKind::LocalVariable,
            ItemKind::Function,
            ItemKind::DiagnosticFilterNode,
            ItemKind::EntryPoint,
        ]
        .into_iter()
        .find(|it| *it as u32 == told.kind)
    }
}

/// Returns what is the source of an error, of one of its fields and of the field's name: a field `source` is itself,
/// and the text of a field `cause` is shown within the error's own, so its source is that of the error.
macro_rules! return_source {
    (source $field:ident) => {
        return Some($field)
    };
    (cause $field:ident) => {
        return std::error::Error::source($field)
    };
    ($other:ident $field:ident) => {};
}

/// Declares an enum of errors. After `=` are the number of a variant, and its text with what the text shows. A variant
/// has its fields in the order in which outcomes have their values.
macro_rules! errors {
    (
        $(#[$about:meta])*
        pub enum $name:ident {
            $(
                $(#[$doc:meta])*
                $variant:ident
                $( ( $( $item:ident: $item_type:ty ),+ ) )?
                $( { $( $(#[$field_doc:meta])* $field:ident: $field_type:ty, )+ } )?
                = $number:path => $text:literal $( ( $($shown:expr),+ ) )?,
            )+
        }
    ) => {
        $(#[$about])*
        #[derive(Clone, Copy, Debug, PartialEq, Eq, Hash)]
        #[non_exhaustive]
        pub enum $name {
            $(
                $(#[$doc])*
                $variant
                $( ( $($item_type),+ ) )?
                $( { $( $(#[$field_doc])* $field: $field_type, )+ } )?,
            )+
        }

        impl $crate::told::Tell for $name {
            fn tell(told: &mut $crate::told::Told<'_>) -> Option<$name> {
                match told.next_error()? {
                    $(
                        $number => Some(
                            $name::$variant
                            $( ( $( <$item_type as $crate::told::Tell>::tell(told)? ),+ ) )?
                            $( { $( $field: <$field_type as $crate::told::Tell>::tell(told)?, )+ } )?
                        ),
                    )+
                    _ => None,
                }
            }
        }

        impl std::fmt::Display for $name {
            #[allow(unused_variables)]
            fn fmt(&self, f: &mut std::fmt::Formatter<'_>) -> std::fmt::Result {
                match self {
                    $(
                        $name::$variant $( ( $($item),+ ) )? $( { $($field),+ } )? => {
                            write!(f, $text $( , $($shown),+ )?)
                        }
                    )+
                }
            }
        }

        impl std::error::Error for $name {
            #[allow(unused_variables, unreachable_code)]
            fn source(&self) -> Option<&(dyn std::error::Error + 'static)> {
                match self {
                    $(
                        $name::$variant $( ( $($item),+ ) )? $( { $($field),+ } )? => {
                            $( $( $crate::told::return_source!($item $item); )+ )?
                            $( $( $crate::told::return_source!($field $field); )+ )?
                            None
                        }
                    )+
                }
            }
        }
    };
}

pub(crate) use {errors, return_source};
