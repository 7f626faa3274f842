//! The C interface as it is: what `naga_check.h` declares, under its names.
//!
//! The header says what each call does and what its caller owes. The other modules of this crate call it safely.

mod flags;

use std::ffi::c_void;
use std::ptr;

pub use flags::*;

/// What calls return: a `NAGA_CHECK_` constant from `NAGA_CHECK_OK` to `NAGA_CHECK_NOT_OPEN`.
pub type NagaCheckStatus = u32;

/// Declares constants that share a line of documentation.
macro_rules! constants {
    ($about:literal $($name:ident = $value:literal,)+) => {
        $(
            #[doc = $about]
            pub const $name: u32 = $value;
        )+
    };
}

mod errors;
mod words;

pub use errors::*;
pub use words::*;

/// The version of the interface that this crate is written for.
pub const NAGA_CHECK_ABI_VERSION: u32 = 3;

/// A word that stands for nothing: no index, no name, no width.
pub const NAGA_CHECK_NONE: u32 = 0xFFFF_FFFF;

/// The most operands of an item.
pub const NAGA_CHECK_MOST_OPERANDS: u32 = 0xFF_FFFF;

/// The magic word, the first operand of the header: `NAGW` in a file.
pub const NAGA_CHECK_MAGIC: u32 = 0x5747_414E;

/// The version of the words, the second operand of the header.
pub const NAGA_CHECK_WORDS_VERSION: u32 = 1;

constants! {
    "What calls return."
    NAGA_CHECK_OK = 0,
    NAGA_CHECK_REFUSED = 1,
    NAGA_CHECK_UNREADABLE = 2,
    NAGA_CHECK_MEMORY = 3,
    NAGA_CHECK_ROOM = 4,
    NAGA_CHECK_NO_TYPE = 5,
    NAGA_CHECK_LIMIT = 6,
    NAGA_CHECK_OPTIONS = 7,
    NAGA_CHECK_SETTINGS = 8,
    NAGA_CHECK_NOT_SHAREABLE = 9,
    NAGA_CHECK_NOT_OPEN = 10,
}

/// The most leaves that a call comes to by default.
pub const NAGA_CHECK_MOST_LEAVES: u64 = 0x100_0000;

constants! {
    "What settings that come with a module are worth."
    NAGA_CHECK_SETTINGS_REFUSED = 0,
    NAGA_CHECK_SETTINGS_NARROW = 1,
}

/// How a module is validated, and how much a call may take.
#[repr(C)]
#[derive(Clone, Copy, Debug, PartialEq, Eq)]
pub struct NagaCheckOptions {
    /// The size of the struct in bytes.
    pub size: u32,
    /// Which parts are validated.
    pub flags: u32,
    /// What the module may use.
    pub capabilities: u64,
    /// 1 if overrides have to have their values, else 0.
    pub resolved: u32,
    /// What settings that come with a module are worth.
    pub settings: u32,
    /// The most words, or the most bytes of a text divided by four.
    pub most_words: u64,
    /// The most items of words, or the most line ends of a text.
    pub most_items: u64,
    /// The most leaves that a call may come to.
    pub most_leaves: u64,
}

/// What was found out about a module.
#[repr(C)]
#[derive(Clone, Copy, Debug, Default, PartialEq, Eq)]
pub struct NagaCheckOutcome {
    /// The word of the first item that can't be read, or the item that is refused.
    pub index: u64,
    /// The number of types, if the module could be read.
    pub types: u64,
    /// The number of functions.
    pub functions: u64,
    /// The number of entry points.
    pub entry_points: u64,
    /// How many elements were written to the caller's buffer.
    pub written: u64,
    /// What the errors hold, outermost error first, then 0.
    pub values: [u64; 5],
    /// The stage of a refusal, or 0.
    pub stage: u32,
    /// The kind of item that `index` is of, or 0.
    pub kind: u32,
    /// The error of the stage, and the errors within it, outermost first, then 0.
    pub errors: [u32; 4],
    /// How many values the errors hold.
    pub value_count: u32,
    /// The expression that is refused, of a function or an entry point, else 0.
    pub expression: u32,
}

/// What is known of a type. Sizes and alignments are in bytes.
#[repr(C)]
#[derive(Clone, Copy, Debug, Default, PartialEq, Eq)]
pub struct NagaCheckTypeInfo {
    /// naga's `TypeFlags`.
    pub flags: u32,
    /// The size.
    pub size: u32,
    /// The alignment.
    pub alignment: u32,
    /// The alignment in uniform buffers, or 0 if the type has no layout there.
    pub uniform_alignment: u32,
    /// Then why, else 0.
    pub uniform_error: u32,
    /// The alignment in storage buffers, or 0 if the type has no layout there.
    pub storage_alignment: u32,
    /// Then why, else 0.
    pub storage_error: u32,
    /// 1 if immediates may hold the type, else 0.
    pub immediates: u32,
}

/// A leaf of a type: a scalar, vector, matrix or atomic inside it.
#[repr(C)]
#[derive(Clone, Copy, Debug, Default, PartialEq, Eq)]
pub struct NagaCheckLeaf {
    /// The place of its first byte.
    pub first: u64,
    /// Where its path begins in the buffer of paths.
    pub path_at: u64,
    /// The number of indexes of members and elements that lead to it.
    pub path_length: u32,
    /// The size in bytes.
    pub size: u32,
    /// The alignment in bytes.
    pub alignment: u32,
    /// To which of the types that were asked about it belongs, from 0.
    pub query: u32,
}

/// How many leaves and how many indexes of paths were written.
#[repr(C)]
#[derive(Clone, Copy, Debug, Default, PartialEq, Eq)]
pub struct NagaCheckCounts {
    /// Of leaves.
    pub leaves: u64,
    /// Of indexes of paths.
    pub paths: u64,
}

/// A module that was read and validated once, open or closed.
#[repr(C)]
#[derive(Debug)]
pub struct NagaCheckModule {
    /// What the library knows of it, or null if it is closed.
    at: *mut c_void,
}

impl NagaCheckModule {
    /// A module that is closed.
    #[must_use]
    pub const fn closed() -> NagaCheckModule {
        NagaCheckModule {
            at: ptr::null_mut(),
        }
    }
}

unsafe extern "C" {
    /// The version of the interface that the library has.
    pub safe fn naga_check_abi_version() -> u32;

    /// Validates a module in words.
    pub fn naga_check_words_with(
        words: *const u32,
        word_count: usize,
        options: *const NagaCheckOptions,
        infos: *mut NagaCheckTypeInfo,
        info_count: usize,
        outcome: *mut NagaCheckOutcome,
    ) -> NagaCheckStatus;

    /// Validates a module in words, and the expressions of its functions and entry points.
    pub fn naga_check_functions_with(
        words: *const u32,
        word_count: usize,
        options: *const NagaCheckOptions,
        stages: *mut u32,
        stage_count: usize,
        outcome: *mut NagaCheckOutcome,
    ) -> NagaCheckStatus;

    /// Validates a module in words, its variables, the expressions of its functions and entry points, and what these
    /// declare.
    pub fn naga_check_declarations_with(
        words: *const u32,
        word_count: usize,
        options: *const NagaCheckOptions,
        outcome: *mut NagaCheckOutcome,
    ) -> NagaCheckStatus;

    /// Validates a module in words, and writes the leaves of types of it.
    pub fn naga_check_leaves_with(
        words: *const u32,
        word_count: usize,
        options: *const NagaCheckOptions,
        types: *const u32,
        type_count: usize,
        length: u32,
        leaves: *mut NagaCheckLeaf,
        leaf_count: usize,
        paths: *mut u32,
        path_count: usize,
        counts: *mut NagaCheckCounts,
        outcome: *mut NagaCheckOutcome,
    ) -> NagaCheckStatus;

    /// Validates a module in words, and counts the leaves of types of it, and the indexes of their paths.
    pub fn naga_check_count_leaves_with(
        words: *const u32,
        word_count: usize,
        options: *const NagaCheckOptions,
        types: *const u32,
        type_count: usize,
        length: u32,
        counts: *mut NagaCheckCounts,
        outcome: *mut NagaCheckOutcome,
    ) -> NagaCheckStatus;

    /// Validates a module in words, and writes the slots of immediate data that a value uses.
    pub fn naga_check_slots_with(
        words: *const u32,
        word_count: usize,
        options: *const NagaCheckOptions,
        r#type: u32,
        offset: u32,
        slots: *mut u64,
        outcome: *mut NagaCheckOutcome,
    ) -> NagaCheckStatus;

    /// Validates a module in words, and opens it if it is accepted.
    pub fn naga_check_open_with(
        words: *const u32,
        word_count: usize,
        options: *const NagaCheckOptions,
        module: *mut NagaCheckModule,
        outcome: *mut NagaCheckOutcome,
    ) -> NagaCheckStatus;

    /// Writes the infos of the types of an open module.
    pub fn naga_check_module_types_with(
        module: *mut NagaCheckModule,
        infos: *mut NagaCheckTypeInfo,
        info_count: usize,
        outcome: *mut NagaCheckOutcome,
    ) -> NagaCheckStatus;

    /// Validates the expressions of the functions and entry points of an open module.
    pub fn naga_check_module_functions_with(
        module: *mut NagaCheckModule,
        stages: *mut u32,
        stage_count: usize,
        outcome: *mut NagaCheckOutcome,
    ) -> NagaCheckStatus;

    /// Validates the variables of an open module, the expressions of its functions and entry points, and what these declare.
    pub fn naga_check_module_declarations_with(
        module: *mut NagaCheckModule,
        outcome: *mut NagaCheckOutcome,
    ) -> NagaCheckStatus;

    /// Writes the leaves of types of an open module.
    pub fn naga_check_module_leaves_with(
        module: *mut NagaCheckModule,
        types: *const u32,
        type_count: usize,
        length: u32,
        leaves: *mut NagaCheckLeaf,
        leaf_count: usize,
        paths: *mut u32,
        path_count: usize,
        counts: *mut NagaCheckCounts,
        outcome: *mut NagaCheckOutcome,
    ) -> NagaCheckStatus;

    /// Counts the leaves of types of an open module, and the indexes of their paths.
    pub fn naga_check_module_count_leaves_with(
        module: *mut NagaCheckModule,
        types: *const u32,
        type_count: usize,
        length: u32,
        counts: *mut NagaCheckCounts,
        outcome: *mut NagaCheckOutcome,
    ) -> NagaCheckStatus;

    /// Writes the slots of immediate data that a value of a type of an open module uses.
    pub fn naga_check_module_slots_with(
        module: *mut NagaCheckModule,
        r#type: u32,
        offset: u32,
        slots: *mut u64,
        outcome: *mut NagaCheckOutcome,
    ) -> NagaCheckStatus;

    /// Closes a module.
    pub fn naga_check_close_with(module: *mut NagaCheckModule);

    /// Validates a module in a text.
    pub fn naga_check_text_with(
        text: *const u8,
        text_count: usize,
        options: *const NagaCheckOptions,
        infos: *mut NagaCheckTypeInfo,
        info_count: usize,
        outcome: *mut NagaCheckOutcome,
    ) -> NagaCheckStatus;

    /// Writes the report on a text.
    pub fn naga_check_report_with(
        text: *const u8,
        text_count: usize,
        report: *mut u8,
        report_count: usize,
        length: *mut usize,
    ) -> NagaCheckStatus;

    /// Writes naga's text of the errors of an outcome, as far as the buffer reaches, and returns the length of it all.
    pub fn naga_check_error_text_with(
        outcome: *const NagaCheckOutcome,
        buffer: *mut u8,
        room: usize,
    ) -> usize;
}

// The sizes and places that `naga_check.h` has on the platform of the library.
const _: () = {
    use std::mem::{offset_of, size_of};

    assert!(size_of::<NagaCheckOptions>() == 48);
    assert!(offset_of!(NagaCheckOptions, most_words) == 24);
    assert!(size_of::<NagaCheckOutcome>() == 112);
    assert!(offset_of!(NagaCheckOutcome, stage) == 80);
    assert!(offset_of!(NagaCheckOutcome, expression) == 108);
    assert!(size_of::<NagaCheckTypeInfo>() == 32);
    assert!(offset_of!(NagaCheckTypeInfo, immediates) == 28);
    assert!(size_of::<NagaCheckLeaf>() == 32);
    assert!(offset_of!(NagaCheckLeaf, path_length) == 16);
    assert!(offset_of!(NagaCheckLeaf, query) == 28);
    assert!(size_of::<NagaCheckCounts>() == 16);
    assert!(size_of::<NagaCheckModule>() == 8);
};
