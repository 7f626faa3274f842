//! The calls of the C interface on slices: all unsafe code of this crate.
//!
//! What they owe the library is the same each time, and slices have it. Their pointers are aligned and not null, also
//! those of empty slices; a slice has as many elements as its length says, and at most `isize::MAX` bytes; and a
//! mutable one overlaps no other, nor a local variable. The stack that a call needs is the caller's to give.

use crate::options::Options;
use crate::sys::{
    self, NagaCheckCounts, NagaCheckLeaf, NagaCheckModule, NagaCheckOutcome, NagaCheckStatus,
    NagaCheckTypeInfo,
};
use crate::version;

/// A module, and how it is validated.
#[derive(Clone, Copy)]
pub(crate) struct Subject<'a> {
    pub(crate) words: &'a [u32],
    pub(crate) options: &'a Options,
}

/// Writes the report on a text, and returns its length.
pub(crate) fn report(text: &[u8], report: &mut [u8]) -> (NagaCheckStatus, usize) {
    version::require();
    let mut length = 0;
    // SAFETY: the buffers are slices, and `length` is a variable of its own.
    let status = unsafe {
        sys::naga_check_report_with(
            text.as_ptr(),
            text.len(),
            report.as_mut_ptr(),
            report.len(),
            &raw mut length,
        )
    };
    (status, length)
}

/// Writes naga's text of the errors of an outcome, as far as the buffer reaches, and returns the length of it all.
#[cfg(test)]
pub(crate) fn error_text(outcome: &NagaCheckOutcome, buffer: &mut [u8]) -> usize {
    version::require();
    // SAFETY: the buffer is a slice, and the outcome a reference.
    unsafe { sys::naga_check_error_text_with(outcome, buffer.as_mut_ptr(), buffer.len()) }
}

/// Validates a module in a text, and writes the infos of its types.
pub(crate) fn check_text(
    text: &[u8],
    options: &Options,
    infos: &mut [NagaCheckTypeInfo],
) -> (NagaCheckStatus, NagaCheckOutcome) {
    version::require();
    let mut outcome = NagaCheckOutcome::default();
    // SAFETY: the buffers are slices, the options are a reference, and `outcome` is a variable of its own.
    let status = unsafe {
        sys::naga_check_text_with(
            text.as_ptr(),
            text.len(),
            options.as_raw(),
            infos.as_mut_ptr(),
            infos.len(),
            &raw mut outcome,
        )
    };
    (status, outcome)
}

/// Validates a module, and writes the infos of its types.
pub(crate) fn check_words(
    subject: Subject<'_>,
    infos: &mut [NagaCheckTypeInfo],
) -> (NagaCheckStatus, NagaCheckOutcome) {
    version::require();
    let mut outcome = NagaCheckOutcome::default();
    // SAFETY: the buffers are slices, the options are a reference, and `outcome` is a variable of its own.
    let status = unsafe {
        sys::naga_check_words_with(
            subject.words.as_ptr(),
            subject.words.len(),
            subject.options.as_raw(),
            infos.as_mut_ptr(),
            infos.len(),
            &raw mut outcome,
        )
    };
    (status, outcome)
}

/// Validates a module with its functions, and writes the stages of functions and entry points.
pub(crate) fn check_functions(
    subject: Subject<'_>,
    stages: &mut [u32],
) -> (NagaCheckStatus, NagaCheckOutcome) {
    version::require();
    let mut outcome = NagaCheckOutcome::default();
    // SAFETY: the buffers are slices, the options are a reference, and `outcome` is a variable of its own.
    let status = unsafe {
        sys::naga_check_functions_with(
            subject.words.as_ptr(),
            subject.words.len(),
            subject.options.as_raw(),
            stages.as_mut_ptr(),
            stages.len(),
            &raw mut outcome,
        )
    };
    (status, outcome)
}

/// Validates a module with its variables, its functions, and what these declare.
pub(crate) fn check_declarations(subject: Subject<'_>) -> (NagaCheckStatus, NagaCheckOutcome) {
    version::require();
    let mut outcome = NagaCheckOutcome::default();
    // SAFETY: the words are a slice, the options are a reference, and `outcome` is a variable of its own.
    let status = unsafe {
        sys::naga_check_declarations_with(
            subject.words.as_ptr(),
            subject.words.len(),
            subject.options.as_raw(),
            &raw mut outcome,
        )
    };
    (status, outcome)
}

/// Counts the leaves of types, and the indexes of their paths.
pub(crate) fn count_leaves(
    subject: Subject<'_>,
    types: &[u32],
    length: u32,
) -> (NagaCheckStatus, NagaCheckCounts, NagaCheckOutcome) {
    version::require();
    let mut counts = NagaCheckCounts::default();
    let mut outcome = NagaCheckOutcome::default();
    // SAFETY: the buffers are slices, the options are a reference, and the rest are variables of their own.
    let status = unsafe {
        sys::naga_check_count_leaves_with(
            subject.words.as_ptr(),
            subject.words.len(),
            subject.options.as_raw(),
            types.as_ptr(),
            types.len(),
            length,
            &raw mut counts,
            &raw mut outcome,
        )
    };
    (status, counts, outcome)
}

/// Writes the leaves of types, and their paths.
pub(crate) fn leaves(
    subject: Subject<'_>,
    types: &[u32],
    length: u32,
    leaves: &mut [NagaCheckLeaf],
    paths: &mut [u32],
) -> (NagaCheckStatus, NagaCheckCounts, NagaCheckOutcome) {
    version::require();
    let mut counts = NagaCheckCounts::default();
    let mut outcome = NagaCheckOutcome::default();
    // SAFETY: the buffers are slices, the options are a reference, and the rest are variables of their own.
    let status = unsafe {
        sys::naga_check_leaves_with(
            subject.words.as_ptr(),
            subject.words.len(),
            subject.options.as_raw(),
            types.as_ptr(),
            types.len(),
            length,
            leaves.as_mut_ptr(),
            leaves.len(),
            paths.as_mut_ptr(),
            paths.len(),
            &raw mut counts,
            &raw mut outcome,
        )
    };
    (status, counts, outcome)
}

/// Returns the slots of immediate data that a value of a type uses from a byte on.
pub(crate) fn slots(
    subject: Subject<'_>,
    ty: u32,
    offset: u32,
) -> (NagaCheckStatus, u64, NagaCheckOutcome) {
    version::require();
    let mut slots = 0;
    let mut outcome = NagaCheckOutcome::default();
    // SAFETY: the words are a slice, the options are a reference, and the rest are variables of their own.
    let status = unsafe {
        sys::naga_check_slots_with(
            subject.words.as_ptr(),
            subject.words.len(),
            subject.options.as_raw(),
            ty,
            offset,
            &raw mut slots,
            &raw mut outcome,
        )
    };
    (status, slots, outcome)
}

/// A module that the library keeps, open or closed: no other code writes it, and it is closed when it is dropped.
#[derive(Debug)]
pub(crate) struct OpenModule(NagaCheckModule);

impl Drop for OpenModule {
    fn drop(&mut self) {
        // SAFETY: the module is as a call left it.
        unsafe { sys::naga_check_close_with(&raw mut self.0) }
    }
}

impl OpenModule {
    /// Validates a module, and opens it if it is accepted.
    pub(crate) fn new(subject: Subject<'_>) -> (NagaCheckStatus, OpenModule, NagaCheckOutcome) {
        version::require();
        let mut module = NagaCheckModule::closed();
        let mut outcome = NagaCheckOutcome::default();
        // SAFETY: the words are a slice, the options are a reference, and the rest are variables of their own.
        let status = unsafe {
            sys::naga_check_open_with(
                subject.words.as_ptr(),
                subject.words.len(),
                subject.options.as_raw(),
                &raw mut module,
                &raw mut outcome,
            )
        };
        (status, OpenModule(module), outcome)
    }

    /// Writes the infos of its types.
    pub(crate) fn types(
        &mut self,
        infos: &mut [NagaCheckTypeInfo],
    ) -> (NagaCheckStatus, NagaCheckOutcome) {
        let mut outcome = NagaCheckOutcome::default();
        // SAFETY: the module is as a call left it, the buffer is a slice, and `outcome` is a variable of its own.
        let status = unsafe {
            sys::naga_check_module_types_with(
                &raw mut self.0,
                infos.as_mut_ptr(),
                infos.len(),
                &raw mut outcome,
            )
        };
        (status, outcome)
    }

    /// Validates its functions, and writes the stages of functions and entry points.
    pub(crate) fn functions(&mut self, stages: &mut [u32]) -> (NagaCheckStatus, NagaCheckOutcome) {
        let mut outcome = NagaCheckOutcome::default();
        // SAFETY: the module is as a call left it, the buffer is a slice, and `outcome` is a variable of its own.
        let status = unsafe {
            sys::naga_check_module_functions_with(
                &raw mut self.0,
                stages.as_mut_ptr(),
                stages.len(),
                &raw mut outcome,
            )
        };
        (status, outcome)
    }

    /// Validates its variables, its functions, and what these declare.
    pub(crate) fn declarations(&mut self) -> (NagaCheckStatus, NagaCheckOutcome) {
        let mut outcome = NagaCheckOutcome::default();
        // SAFETY: the module is as a call left it, and `outcome` is a variable of its own.
        let status =
            unsafe { sys::naga_check_module_declarations_with(&raw mut self.0, &raw mut outcome) };
        (status, outcome)
    }

    /// Counts the leaves of types, and the indexes of their paths.
    pub(crate) fn count_leaves(
        &mut self,
        types: &[u32],
        length: u32,
    ) -> (NagaCheckStatus, NagaCheckCounts, NagaCheckOutcome) {
        let mut counts = NagaCheckCounts::default();
        let mut outcome = NagaCheckOutcome::default();
        // SAFETY: the module is as a call left it, the types are a slice, and the rest are variables of their own.
        let status = unsafe {
            sys::naga_check_module_count_leaves_with(
                &raw mut self.0,
                types.as_ptr(),
                types.len(),
                length,
                &raw mut counts,
                &raw mut outcome,
            )
        };
        (status, counts, outcome)
    }

    /// Writes the leaves of types, and their paths.
    pub(crate) fn leaves(
        &mut self,
        types: &[u32],
        length: u32,
        leaves: &mut [NagaCheckLeaf],
        paths: &mut [u32],
    ) -> (NagaCheckStatus, NagaCheckCounts, NagaCheckOutcome) {
        let mut counts = NagaCheckCounts::default();
        let mut outcome = NagaCheckOutcome::default();
        // SAFETY: the module is as a call left it, the buffers are slices, and the rest are variables of their own.
        let status = unsafe {
            sys::naga_check_module_leaves_with(
                &raw mut self.0,
                types.as_ptr(),
                types.len(),
                length,
                leaves.as_mut_ptr(),
                leaves.len(),
                paths.as_mut_ptr(),
                paths.len(),
                &raw mut counts,
                &raw mut outcome,
            )
        };
        (status, counts, outcome)
    }

    /// Returns the slots of immediate data that a value of a type uses from a byte on.
    pub(crate) fn slots(
        &mut self,
        ty: u32,
        offset: u32,
    ) -> (NagaCheckStatus, u64, NagaCheckOutcome) {
        let mut slots = 0;
        let mut outcome = NagaCheckOutcome::default();
        // SAFETY: the module is as a call left it, and the rest are variables of their own.
        let status = unsafe {
            sys::naga_check_module_slots_with(
                &raw mut self.0,
                ty,
                offset,
                &raw mut slots,
                &raw mut outcome,
            )
        };
        (status, slots, outcome)
    }
}
