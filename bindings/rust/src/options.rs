//! How a host wants modules to be validated, and how much a call may take.

use crate::flags::{Capabilities, ValidationFlags};
use crate::sys::{self, NagaCheckOptions};
use std::mem::size_of;

/// What settings that come with a module, in its words or its text, are worth.
#[derive(Clone, Copy, Debug, Default, PartialEq, Eq, Hash)]
pub enum Settings {
    /// A module with settings is not validated: calls return [`Error::Settings`](crate::Error::Settings).
    #[default]
    Refused = sys::NAGA_CHECK_SETTINGS_REFUSED as isize,
    /// They narrow: what either says is validated, and what both allow may be used.
    Narrow = sys::NAGA_CHECK_SETTINGS_NARROW as isize,
}

/// How a module is validated, and how much a call may take. They are the host's: what comes in the words or the text of
/// a stranger can't loosen them.
///
/// ```
/// use naga_check::{check_words, Capabilities, Options, Scalar, TypeInner, Words};
///
/// let mut words = Words::new();
/// words.add_type(TypeInner::Scalar(Scalar::F16));
/// let words = words.finish()?;
/// assert!(check_words(&words, &Options::new()).is_err());
/// let options = Options::new().capabilities(Capabilities::SHADER_FLOAT16).most_words(1000);
/// assert!(check_words(&words, &options).is_ok());
/// # Ok::<(), naga_check::BuildError>(())
/// ```
#[derive(Clone, Copy, Debug, PartialEq, Eq)]
pub struct Options(NagaCheckOptions);

impl Options {
    /// All is validated, as naga does by default, settings are refused, and nothing is limited but the leaves of a call,
    /// to 16,777,216.
    #[must_use]
    pub const fn new() -> Options {
        Options(NagaCheckOptions {
            size: size_of::<NagaCheckOptions>() as u32,
            flags: sys::NAGA_CHECK_VALIDATE_ALL,
            capabilities: sys::NAGA_CHECK_CAPABILITY_DEFAULT,
            resolved: 0,
            settings: sys::NAGA_CHECK_SETTINGS_REFUSED,
            most_words: u64::MAX,
            most_items: u64::MAX,
            most_leaves: sys::NAGA_CHECK_MOST_LEAVES,
        })
    }

    /// Validates these parts of a module.
    #[must_use]
    pub const fn flags(mut self, flags: ValidationFlags) -> Options {
        self.0.flags = flags.bits();
        self
    }

    /// Lets a module use this.
    #[must_use]
    pub const fn capabilities(mut self, capabilities: Capabilities) -> Options {
        self.0.capabilities = capabilities.bits();
        self
    }

    /// Whether overrides have to have their values.
    #[must_use]
    pub const fn resolved(mut self, resolved: bool) -> Options {
        self.0.resolved = resolved as u32;
        self
    }

    /// What settings that come with a module are worth.
    #[must_use]
    pub const fn settings(mut self, settings: Settings) -> Options {
        self.0.settings = settings as u32;
        self
    }

    /// Reads no more words than these, or four times as many bytes of a text.
    #[must_use]
    pub const fn most_words(mut self, most: u64) -> Options {
        self.0.most_words = most;
        self
    }

    /// Reads no more items of words than these, or as many line ends of a text.
    #[must_use]
    pub const fn most_items(mut self, most: u64) -> Options {
        self.0.most_items = most;
        self
    }

    /// Comes to no more leaves than these.
    #[must_use]
    pub const fn most_leaves(mut self, most: u64) -> Options {
        self.0.most_leaves = most;
        self
    }

    /// What the library takes.
    pub(crate) const fn as_raw(&self) -> &NagaCheckOptions {
        &self.0
    }
}

impl Default for Options {
    fn default() -> Options {
        Options::new()
    }
}
