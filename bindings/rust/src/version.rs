//! The version of the library that is linked.

use crate::sys;
use std::sync::atomic::{AtomicBool, Ordering};

/// Whether a call has found the linked library to have this crate's version of the interface.
static IS_KNOWN: AtomicBool = AtomicBool::new(false);

/// Compares the version of the linked library with this crate's, until a call has done so.
///
/// # Panics
///
/// If they differ.
pub(crate) fn require() {
    if IS_KNOWN.load(Ordering::Relaxed) {
        return;
    }
    let version = sys::naga_check_abi_version();
    assert!(
        version == sys::NAGA_CHECK_ABI_VERSION,
        "naga_check: the library that is linked has version {version} of the interface, and this crate is written for \
         version {}",
        sys::NAGA_CHECK_ABI_VERSION
    );
    IS_KNOWN.store(true, Ordering::Relaxed);
}
