//! The calls of the library, with results that own their memory.

use crate::errors::{Disalignment, Error, Refusal};
use crate::flags::{ShaderStages, TypeFlags};
use crate::operands::Handle;
use crate::options::Options;
use crate::raw::{self, Subject};
use crate::sys::{
    self, NagaCheckCounts, NagaCheckLeaf, NagaCheckOutcome, NagaCheckStatus, NagaCheckTypeInfo,
};
use crate::types::Type;
use std::fmt;
use std::slice;
use std::thread;

/// Whether a module in a text is accepted.
#[derive(Clone, Copy, Debug, PartialEq, Eq, Hash)]
pub enum Verdict {
    /// The module keeps the rules.
    Accepted,
    /// The module breaks a rule.
    Refused,
    /// The text can't be read.
    Unreadable,
}

/// The report on a text.
#[derive(Clone, Debug, PartialEq, Eq)]
pub struct Report {
    /// Whether the module is accepted.
    pub verdict: Verdict,
    /// Its lines, as the program `naga_check` prints them.
    pub text: String,
}

/// What is known of an accepted type. Sizes and alignments are in bytes.
#[derive(Clone, Copy, Debug, PartialEq, Eq)]
pub struct TypeInfo {
    /// What the type may be used for.
    pub flags: TypeFlags,
    /// The size of a value; of a type without a fixed size, that of a value with one element.
    pub size: u32,
    /// The alignment.
    pub alignment: u32,
    /// The alignment in uniform buffers, or why the type has no layout there.
    pub uniform_layout: Result<u32, Disalignment>,
    /// The alignment in storage buffers, or why the type has no layout there.
    pub storage_layout: Result<u32, Disalignment>,
    /// Whether immediates may hold it.
    pub is_immediate: bool,
}

impl TypeInfo {
    /// What the library wrote, if this crate knows its numbers.
    fn from_raw(raw: &NagaCheckTypeInfo) -> Option<TypeInfo> {
        Some(TypeInfo {
            flags: TypeFlags::from_bits(raw.flags),
            size: raw.size,
            alignment: raw.alignment,
            uniform_layout: layout(raw.uniform_alignment, raw.uniform_error)?,
            storage_layout: layout(raw.storage_alignment, raw.storage_error)?,
            is_immediate: raw.immediates != 0,
        })
    }
}

/// A layout by its alignment, which is 0 if there is none, and the code of why there is none.
fn layout(alignment: u32, error: u32) -> Option<Result<u32, Disalignment>> {
    if alignment == 0 {
        Disalignment::of_number(error).map(Err)
    } else {
        Some(Ok(alignment))
    }
}

/// The pipeline stages that may use each function and entry point of an accepted module.
#[derive(Clone, Debug, Default, PartialEq, Eq)]
pub struct FunctionStages {
    /// Of each function.
    pub functions: Vec<ShaderStages>,
    /// Of each entry point.
    pub entry_points: Vec<ShaderStages>,
}

/// Why functions are refused.
#[derive(Clone, Debug, PartialEq, Eq)]
pub struct FunctionsError {
    /// Why.
    pub error: Error,
    /// The stages of the functions, and then entry points, before the refused one.
    pub accepted: Vec<ShaderStages>,
}

impl fmt::Display for FunctionsError {
    fn fmt(&self, f: &mut fmt::Formatter<'_>) -> fmt::Result {
        self.error.fmt(f)
    }
}

impl std::error::Error for FunctionsError {
    fn source(&self) -> Option<&(dyn std::error::Error + 'static)> {
        self.error.source()
    }
}

impl From<Error> for FunctionsError {
    fn from(error: Error) -> FunctionsError {
        FunctionsError {
            error,
            accepted: Vec::new(),
        }
    }
}

impl From<FunctionsError> for Error {
    fn from(refused: FunctionsError) -> Error {
        refused.error
    }
}

/// A leaf of a type: a scalar, vector, matrix or atomic inside it.
#[derive(Clone, Copy, Debug, PartialEq, Eq)]
pub struct Leaf<'a> {
    /// The place of its first byte.
    pub first: u64,
    /// The size in bytes.
    pub size: u32,
    /// The alignment in bytes.
    pub alignment: u32,
    /// Which of the given types it belongs to, from 0.
    pub query: u32,
    /// The indexes of members and elements that lead to it.
    pub path: &'a [u32],
}

/// The leaves of types, those of the first type first, each in the order of their paths.
#[derive(Clone, Debug, Default, PartialEq, Eq)]
pub struct Leaves {
    leaves: Vec<NagaCheckLeaf>,
    paths: Vec<u32>,
    are_all: bool,
}

impl Leaves {
    /// The number of leaves.
    #[must_use]
    pub fn len(&self) -> usize {
        self.leaves.len()
    }

    /// Whether there is none.
    #[must_use]
    pub fn is_empty(&self) -> bool {
        self.leaves.is_empty()
    }

    /// Whether the types have no more leaves than these. [`leaves_up_to`] may leave some out.
    #[must_use]
    pub fn are_all(&self) -> bool {
        self.are_all
    }

    /// The leaves in order.
    pub fn iter(&self) -> LeafIter<'_> {
        LeafIter {
            leaves: self.leaves.iter(),
            paths: &self.paths,
        }
    }
}

impl<'a> IntoIterator for &'a Leaves {
    type Item = Leaf<'a>;
    type IntoIter = LeafIter<'a>;

    fn into_iter(self) -> LeafIter<'a> {
        self.iter()
    }
}

/// The leaves of [`Leaves`] in order.
#[derive(Clone, Debug)]
pub struct LeafIter<'a> {
    leaves: slice::Iter<'a, NagaCheckLeaf>,
    paths: &'a [u32],
}

impl<'a> Iterator for LeafIter<'a> {
    type Item = Leaf<'a>;

    fn next(&mut self) -> Option<Leaf<'a>> {
        let leaf = self.leaves.next()?;
        let start = leaf.path_at as usize;
        Some(Leaf {
            first: leaf.first,
            size: leaf.size,
            alignment: leaf.alignment,
            query: leaf.query,
            path: &self.paths[start..start + leaf.path_length as usize],
        })
    }

    fn size_hint(&self) -> (usize, Option<usize>) {
        self.leaves.size_hint()
    }
}

impl ExactSizeIterator for LeafIter<'_> {}

/// A buffer of elements that a call overwrites.
fn buffer<T: Clone + Default>(count: usize) -> Result<Vec<T>, Error> {
    let mut elements = Vec::new();
    elements
        .try_reserve_exact(count)
        .map_err(|_| Error::OutOfMemory)?;
    elements.resize(count, T::default());
    Ok(elements)
}

/// The same of a number that a call returned.
fn buffer_of<T: Clone + Default>(count: u64) -> Result<Vec<T>, Error> {
    buffer(usize::try_from(count).map_err(|_| Error::OutOfMemory)?)
}

/// How many items have an opcode that is looked for: of a module that can be read, or the first ones of another.
fn count_items(words: &[u32], is_counted: impl Fn(u32) -> bool) -> usize {
    let mut left = words;
    let mut count = 0;
    while let [head, rest @ ..] = left {
        count += usize::from(is_counted(head & 0xFF));
        left = rest.get((head >> 8) as usize..).unwrap_or_default();
    }
    count
}

/// How many structs there are.
fn count_structs(words: &[u32]) -> usize {
    count_items(words, |opcode| opcode == sys::NAGA_CHECK_OP_STRUCT)
}

/// Whether structs may be nested deeper than the stack allows that every caller has.
pub(crate) fn may_be_deep(words: &[u32]) -> bool {
    const MOST_STRUCTS: usize = 1000;
    count_structs(words) > MOST_STRUCTS
}

/// The error of a status that is none of success, with what was found out.
pub(crate) fn error_of(status: NagaCheckStatus, outcome: &NagaCheckOutcome) -> Error {
    match status {
        sys::NAGA_CHECK_REFUSED => {
            Refusal::from_outcome(outcome).map_or(Error::Unknown, Error::Refused)
        }
        sys::NAGA_CHECK_UNREADABLE => Error::Unreadable { at: outcome.index },
        sys::NAGA_CHECK_MEMORY => Error::OutOfMemory,
        sys::NAGA_CHECK_NO_TYPE => Error::NoType,
        sys::NAGA_CHECK_LIMIT => Error::Limit,
        sys::NAGA_CHECK_OPTIONS => Error::Options,
        sys::NAGA_CHECK_SETTINGS => Error::Settings,
        sys::NAGA_CHECK_NOT_SHAREABLE => Error::NotShareable,
        _ => Error::Unknown,
    }
}

/// Reports on a module in the text that the program `naga_check` reads, as the program does: the text's own settings
/// are in force, so this is for texts that a host wrote itself. [`check_text`] takes options.
///
/// ```
/// let report = naga_check::report(b"type scalar float 4\n")?;
/// assert_eq!(report.verdict, naga_check::Verdict::Accepted);
/// assert_eq!(report.text, "T0 ff 4 4\nok\n");
/// # Ok::<(), naga_check::Error>(())
/// ```
///
/// # Errors
///
/// `OutOfMemory`. A text that can't be read has a report too.
pub fn report(text: &[u8]) -> Result<Report, Error> {
    // The report has a line for each type, and is rarely longer than the text.
    let mut report = buffer(text.len().saturating_add(64))?;
    loop {
        let (status, length) = raw::report(text, &mut report);
        let verdict = match status {
            sys::NAGA_CHECK_OK => Verdict::Accepted,
            sys::NAGA_CHECK_REFUSED => Verdict::Refused,
            sys::NAGA_CHECK_UNREADABLE => Verdict::Unreadable,
            sys::NAGA_CHECK_ROOM => {
                report = buffer(length)?;
                continue;
            }
            _ => return Err(error_of(status, &NagaCheckOutcome::default())),
        };
        report.truncate(length);
        let text = String::from_utf8_lossy(&report).into_owned();
        return Ok(Report { verdict, text });
    }
}

/// The infos that a call writes, which is given a buffer of at first `count` elements.
pub(crate) fn infos_of(
    count: usize,
    mut call: impl FnMut(&mut [NagaCheckTypeInfo]) -> (NagaCheckStatus, NagaCheckOutcome),
) -> Result<Vec<TypeInfo>, Error> {
    let mut infos = buffer(count)?;
    loop {
        let (status, outcome) = call(&mut infos);
        match status {
            // An empty buffer is never too short.
            sys::NAGA_CHECK_OK if outcome.types == infos.len() as u64 => {
                return infos
                    .iter()
                    .map(TypeInfo::from_raw)
                    .collect::<Option<_>>()
                    .ok_or(Error::Unknown);
            }
            sys::NAGA_CHECK_OK | sys::NAGA_CHECK_ROOM => infos = buffer_of(outcome.types)?,
            _ => return Err(error_of(status, &outcome)),
        }
    }
}

/// Validates a module in the text that the program `naga_check` reads, as [`check_words`] does one in words.
///
/// ```
/// let infos = naga_check::check_text(b"type scalar float 4\n", &naga_check::Options::new())?;
/// assert_eq!(infos[0].size, 4);
/// # Ok::<(), naga_check::Error>(())
/// ```
///
/// # Errors
///
/// As of [`check_words`]. `Unreadable` has the number of a line.
pub fn check_text(text: &[u8], options: &Options) -> Result<Vec<TypeInfo>, Error> {
    infos_of(0, |infos| raw::check_text(text, options, infos))
}

/// Validates a module in words: its handles, types, global expressions, constants and overrides. Returns the info of
/// each type. Of variables, functions and entry points it says nothing: [`check_declarations`] does.
///
/// ```
/// use naga_check::{check_words, Options, Scalar, TypeFlags, TypeInner, VectorSize, Words};
///
/// let mut words = Words::new();
/// let vector = words.add_type(TypeInner::Vector { size: VectorSize::Tri, scalar: Scalar::F32 });
/// let infos = check_words(&words.finish()?, &Options::new())?;
/// let info = infos[vector.index() as usize];
/// assert_eq!((info.size, info.alignment, info.uniform_layout), (12, 16, Ok(16)));
/// assert!(info.flags.contains(TypeFlags::HOST_SHAREABLE));
/// # Ok::<(), Box<dyn std::error::Error>>(())
/// ```
///
/// # Errors
///
/// The first rule that the module breaks, or why nothing is known of it.
pub fn check_words(words: &[u32], options: &Options) -> Result<Vec<TypeInfo>, Error> {
    let is_type =
        |opcode| (sys::NAGA_CHECK_OP_SCALAR..=sys::NAGA_CHECK_OP_BINDING_ARRAY).contains(&opcode);
    let subject = Subject { words, options };
    infos_of(count_items(words, is_type), |infos| {
        raw::check_words(subject, infos)
    })
}

/// Validates a module as [`check_words`] does, and then the expressions of its functions in order, and of its entry
/// points. Returns the pipeline stages that may use each.
///
/// ```
/// use naga_check::{check_functions, Expression, Function, Literal, Options, ShaderStages, Words};
///
/// let mut function = Function::default();
/// function.add_expression(Expression::Literal(Literal::U32(7)));
/// let mut words = Words::new();
/// words.add_function(&function);
/// let stages = check_functions(&words.finish()?, &Options::new())?;
/// assert!(stages.functions[0].contains(ShaderStages::FRAGMENT));
/// # Ok::<(), Box<dyn std::error::Error>>(())
/// ```
///
/// # Errors
///
/// The first rule that the module breaks, with the stages of the functions before, or why nothing is known of it.
pub fn check_functions(words: &[u32], options: &Options) -> Result<FunctionStages, FunctionsError> {
    let is_function =
        |opcode| [sys::NAGA_CHECK_OP_FUNCTION, sys::NAGA_CHECK_OP_ENTRY_POINT].contains(&opcode);
    stages_of(count_items(words, is_function), |stages| {
        raw::check_functions(Subject { words, options }, stages)
    })
}

/// Validates a module as [`check_functions`] does, its variables before its functions, and after these what they declare:
/// of each function its local variables, its arguments and its result, and of each entry point its inputs and outputs,
/// and what its stage asks for. Of statements it says nothing, nor of which variables an entry point uses.
///
/// ```
/// use naga_check::{
///     check_declarations, AddressSpace, Error, GlobalVariable, GlobalVariableError, Options, Refusal,
///     ResourceBinding, Scalar, TypeInner, Words,
/// };
///
/// let module_with = |binding: Option<ResourceBinding>| {
///     let mut words = Words::new();
///     let number = words.add_type(TypeInner::Scalar(Scalar::U32));
///     let mut variable = GlobalVariable::new(AddressSpace::Uniform, number);
///     variable.binding = binding;
///     words.add_global_variable(&variable);
///     words.finish()
/// };
/// check_declarations(&module_with(Some(ResourceBinding::new(0, 1)))?, &Options::new())?;
/// let refused = check_declarations(&module_with(None)?, &Options::new());
/// let Err(Error::Refused(Refusal::GlobalVariable { error, .. })) = refused else {
///     panic!("uniform buffers are bound");
/// };
/// assert_eq!(error, GlobalVariableError::InvalidBinding);
/// # Ok::<(), Box<dyn std::error::Error>>(())
/// ```
///
/// # Errors
///
/// The first rule that the module breaks, or why nothing is known of it.
pub fn check_declarations(words: &[u32], options: &Options) -> Result<(), Error> {
    let (status, outcome) = raw::check_declarations(Subject { words, options });
    declared(status, &outcome)
}

/// Whether a call accepted what a module declares.
pub(crate) fn declared(status: NagaCheckStatus, outcome: &NagaCheckOutcome) -> Result<(), Error> {
    match status {
        sys::NAGA_CHECK_OK => Ok(()),
        _ => Err(error_of(status, outcome)),
    }
}

/// The stages that a call writes, which is given a buffer of at first `count` elements.
pub(crate) fn stages_of(
    count: usize,
    mut call: impl FnMut(&mut [u32]) -> (NagaCheckStatus, NagaCheckOutcome),
) -> Result<FunctionStages, FunctionsError> {
    let mut stages = buffer(count)?;
    loop {
        let (status, outcome) = call(&mut stages);
        let needed = outcome.functions.saturating_add(outcome.entry_points);
        let is_too_short = needed > stages.len() as u64;
        match status {
            // In a buffer that is too short the stages before a refusal are missing.
            sys::NAGA_CHECK_OK | sys::NAGA_CHECK_ROOM | sys::NAGA_CHECK_REFUSED if is_too_short => {
                stages = buffer_of(needed)?;
            }
            sys::NAGA_CHECK_OK => {
                let mut all = stages.into_iter().map(ShaderStages::from_bits);
                let functions = all.by_ref().take(outcome.functions as usize).collect();
                let entry_points = all.take(outcome.entry_points as usize).collect();
                return Ok(FunctionStages {
                    functions,
                    entry_points,
                });
            }
            _ => {
                let written = stages.iter().take(outcome.written as usize);
                let accepted = written.copied().map(ShaderStages::from_bits).collect();
                return Err(FunctionsError {
                    error: error_of(status, &outcome),
                    accepted,
                });
            }
        }
    }
}

/// The leaves of types of a module: at which bytes of a buffer hosts put values. A runtime-sized array counts as
/// `length` elements.
///
/// They are counted first, so that memory is requested once. A type may have more leaves than the options allow, as an
/// array of a billion elements: [`leaves_up_to`] returns the first ones only.
///
/// ```
/// use naga_check::{leaves, Options, Scalar, StructMember, TypeInner, Words};
///
/// let mut words = Words::new();
/// let number = words.add_type(TypeInner::Scalar(Scalar::U32));
/// let members = vec![StructMember::at(0, number), StructMember::at(8, number)];
/// let pair = words.add_type(TypeInner::Struct { members, span: 12 });
/// let leaves = leaves(&words.finish()?, &Options::new(), &[pair], 0)?;
/// let places: Vec<_> = leaves.iter().map(|leaf| (leaf.path, leaf.first)).collect();
/// assert_eq!(places, [(&[0][..], 0), (&[1][..], 8)]);
/// # Ok::<(), Box<dyn std::error::Error>>(())
/// ```
///
/// # Errors
///
/// As of [`check_words`], `NoType`, and `Limit` if there are more leaves than the options allow.
pub fn leaves(
    words: &[u32],
    options: &Options,
    types: &[Handle<Type>],
    length: u32,
) -> Result<Leaves, Error> {
    let subject = Subject { words, options };
    let types: Vec<u32> = types.iter().map(|ty| ty.index()).collect();
    leaves_of(
        raw::count_leaves(subject, &types, length),
        |leaves, paths| raw::leaves(subject, &types, length, leaves, paths),
    )
}

/// What calls on leaves return besides leaves and paths.
type Counted = (NagaCheckStatus, NagaCheckCounts, NagaCheckOutcome);

/// The leaves that a call writes, which were counted before.
pub(crate) fn leaves_of(
    (status, counts, outcome): Counted,
    call: impl FnOnce(&mut [NagaCheckLeaf], &mut [u32]) -> Counted,
) -> Result<Leaves, Error> {
    if status != sys::NAGA_CHECK_OK {
        return Err(error_of(status, &outcome));
    }
    let mut leaves = buffer_of(counts.leaves)?;
    let mut paths = buffer_of(counts.paths)?;
    match call(&mut leaves, &mut paths) {
        (sys::NAGA_CHECK_OK, ..) => Ok(Leaves {
            leaves,
            paths,
            are_all: true,
        }),
        (status, _, outcome) => Err(error_of(status, &outcome)),
    }
}

/// The first leaves of types of a module, as [`leaves`] returns them all: at most `most` of them.
///
/// # Errors
///
/// As of [`check_words`], and `NoType`.
pub fn leaves_up_to(
    words: &[u32],
    options: &Options,
    types: &[Handle<Type>],
    length: u32,
    most: usize,
) -> Result<Leaves, Error> {
    const FIRST_ROOM: usize = 64;
    let subject = Subject { words, options };
    let types: Vec<u32> = types.iter().map(|ty| ty.index()).collect();
    let mut found: Vec<NagaCheckLeaf> = buffer(FIRST_ROOM.min(most))?;
    let mut paths: Vec<u32> = buffer(FIRST_ROOM)?;
    loop {
        let (status, counts, outcome) =
            raw::leaves(subject, &types, length, &mut found, &mut paths);
        let count = counts.leaves as usize;
        match status {
            sys::NAGA_CHECK_ROOM if count < most => {
                if count == found.len() {
                    found = buffer(count.saturating_mul(2).min(most))?;
                } else {
                    paths = buffer(paths.len().saturating_mul(2))?;
                }
            }
            sys::NAGA_CHECK_OK | sys::NAGA_CHECK_ROOM => {
                found.truncate(count);
                paths.truncate(counts.paths as usize);
                return Ok(Leaves {
                    leaves: found,
                    paths,
                    are_all: status == sys::NAGA_CHECK_OK,
                });
            }
            _ => return Err(error_of(status, &outcome)),
        }
    }
}

/// The slots of immediate data that a value of a type uses from a byte on: bit `k` is 1 if the value has one of the
/// bytes `4 * k` to `4 * k + 3`.
///
/// ```
/// use naga_check::{slots, Options, Scalar, TypeInner, VectorSize, Words};
///
/// let mut words = Words::new();
/// let vector = words.add_type(TypeInner::Vector { size: VectorSize::Bi, scalar: Scalar::F32 });
/// assert_eq!(slots(&words.finish()?, &Options::new(), vector, 8)?, 0b1100);
/// # Ok::<(), Box<dyn std::error::Error>>(())
/// ```
///
/// # Errors
///
/// As of [`check_words`], `NoType`, and `NotShareable`.
pub fn slots(
    words: &[u32],
    options: &Options,
    ty: Handle<Type>,
    offset: u32,
) -> Result<u64, Error> {
    /// More than the library needs for a struct within a struct.
    const STACK_OF_STRUCT: usize = 1024;
    let subject = Subject { words, options };
    let (status, slots, outcome) = if may_be_deep(words) {
        // All structs may be nested, and the library calls itself for each.
        let stack = count_structs(words).saturating_mul(STACK_OF_STRUCT);
        thread::scope(|scope| {
            let thread = thread::Builder::new().stack_size(stack);
            let call = thread.spawn_scoped(scope, || raw::slots(subject, ty.index(), offset));
            call.ok()?.join().ok()
        })
        .ok_or(Error::OutOfMemory)?
    } else {
        raw::slots(subject, ty.index(), offset)
    };
    match status {
        sys::NAGA_CHECK_OK => Ok(slots),
        _ => Err(error_of(status, &outcome)),
    }
}
