//! A validator of shader modules whose verdicts are proved: bindings to `libnaga_check`.
//!
//! [`Words`] builds a module from types, expressions and functions that are named as in naga, and the calls read its
//! words: [`check_words`], [`check_functions`] and [`check_declarations`] validate it, [`leaves`] tells at which bytes of a
//! buffer its values are, and [`slots`] which immediate data they use. [`check_text`] validates a module in the text that the program
//! `naga_check` reads. [`Module`] reads and validates words once, for many questions. [`Options`] say how a module is
//! validated and how much a call may take: what comes in the words or the text of a stranger can't loosen them.
//!
//! `Ok` means that every rule of the module's handles, types, global expressions, constants and overrides holds; after
//! [`check_functions`] also every rule of the expressions of functions and entry points; and after
//! [`check_declarations`] besides these every rule of the module's variables, of the local variables, arguments and results
//! of functions, and of the inputs and outputs of entry points. It says nothing of statements, nor of which variables an
//! entry point uses and whether their bindings collide: these are not validated yet.
//!
//! ```
//! use naga_check::{check_words, Error, Options, Scalar, TypeInner, Words};
//!
//! let mut words = Words::new();
//! words.add_type(TypeInner::Scalar(Scalar::F16));
//! let Err(Error::Refused(refusal)) = check_words(&words.finish()?, &Options::new()) else {
//!     panic!("floats of 16 bits need a capability");
//! };
//! assert_eq!(refusal.to_string(), "Type [0] is invalid");
//! # Ok::<(), naga_check::BuildError>(())
//! ```
//!
//! Nothing is kept between calls but a [`Module`], and any number of threads may call at once.
//!
//! # The library
//!
//! The crate links `libnaga_check.a`, which has to have the same version of the C interface. That is compared when the
//! crate is built, with what the package of the library says, and again by the first call, which panics if another
//! library was linked. Without the library the crate can be checked and documented, and not linked.
//!
//! # What may grow
//!
//! A later version may give more of naga's parts words. So what a module is made of is `#[non_exhaustive]`, except
//! [`Scalar`], [`VectorSize`], [`SwizzleComponent`] and [`CooperativeRole`], to which nothing can be added. A host
//! still builds all of it: structs by `new`, `at` or `default`, by the methods that set a field, and by the fields,
//! which are public; and all variants of enums as they are.
//!
//! What a host loses: it can't write such a struct as a literal, so the compiler doesn't name a field that it forgets,
//! and a `match` on such an enum needs an arm for variants that aren't there yet. A field that is added to a variant
//! breaks hosts that build the variant, and comes only with a version of the crate that may break hosts.
#![deny(missing_docs)]
#![forbid(unsafe_op_in_unsafe_fn)]
#![deny(unsafe_code)]

mod bindings;
mod built_in;
mod calls;
mod declaration_errors;
#[cfg(test)]
mod error_texts;
mod errors;
mod expression_error;
mod expressions;
mod flags;
mod module;
mod opened;
mod operands;
mod operators;
mod options;
#[allow(unsafe_code)]
mod raw;
mod stages;
mod statements;
mod storage_format;
#[allow(unsafe_code)]
pub mod sys;
mod told;
mod types;
mod version;
mod words;

pub use bindings::{Binding, Interpolation, MemoryDecorations, ResourceBinding, Sampling};
pub use built_in::BuiltIn;
pub use calls::{
    check_declarations, check_functions, check_text, check_words, leaves, leaves_up_to, report,
    slots, FunctionStages, FunctionsError, Leaf, LeafIter, Leaves, Report, TypeInfo, Verdict,
};
pub use declaration_errors::{
    AlignmentError, BufferSpace, EntryPointError, FunctionDeclarationError, GlobalVariableError,
    ImmediateError, LocalVariableError,
};
pub use errors::{
    ComposeError, ConstExpressionError, ConstantError, Disalignment, Error, HandleError,
    IndexableLengthError, LayoutError, LiteralError, ModuleError, OverrideError, Refusal,
    ResolveError, TypeError, VaryingError, WidthError,
};
pub use expression_error::ExpressionError;
pub use expressions::{
    CooperativeShape, Expression, ImageQuery, Literal, SampleLevel, SwizzleComponent,
};
pub use flags::{Capabilities, ShaderStages, TypeFlags, ValidationFlags};
pub use module::{
    Constant, DiagnosticFilterNode, Documented, EntryPoint, Function, FunctionArgument,
    FunctionResult, GlobalVariable, LocalVariable, MeshStageInfo, Override, SpecialTypes,
};
pub use opened::Module;
pub use operands::Handle;
pub use operators::{BinaryOperator, MathFunction, RelationalFunction, UnaryOperator};
pub use options::{Options, Settings};
pub use stages::{ConservativeDepth, EarlyDepthTest, MeshOutputTopology, ShaderStage};
pub use statements::{
    AtomicFunction, Barrier, Block, CollectiveOperation, GatherMode, RayQueryFunction, Statement,
    SubgroupOperation, SwitchCase, SwitchValue,
};
pub use storage_format::StorageFormat;
pub use told::ItemKind;
pub use types::{
    AddressSpace, ArraySize, CooperativeRole, CooperativeSize, ImageClass, ImageDimension, Scalar,
    ScalarKind, StorageAccess, StructMember, Type, TypeInner, VectorSize,
};
pub use words::{BuildError, Words};
