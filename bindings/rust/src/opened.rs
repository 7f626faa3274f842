//! A module that is read and validated once.

use crate::calls::{
    declared, error_of, infos_of, leaves_of, may_be_deep, slots, stages_of, FunctionStages,
    FunctionsError, Leaves, TypeInfo,
};
use crate::errors::Error;
use crate::operands::Handle;
use crate::options::Options;
use crate::raw::{OpenModule, Subject};
use crate::sys;
use crate::types::Type;
use std::cell::RefCell;

/// A module that is accepted, and kept by the library with what is known of it: it is read and validated once, and then
/// asked as often as a host wants. It stays on the thread that opened it.
///
/// ```
/// use naga_check::{Module, Options, Scalar, StructMember, TypeInner, Words};
///
/// let mut words = Words::new();
/// let number = words.add_type(TypeInner::Scalar(Scalar::U32));
/// let members = vec![StructMember::at(0, number), StructMember::at(8, number)];
/// let pair = words.add_type(TypeInner::Struct { members, span: 12 });
/// let module = Module::new(&words.finish()?, &Options::new())?;
/// assert_eq!(module.type_info(pair).map(|info| info.size), Some(12));
/// let mut places = vec![];
/// for leaf in &module.leaves(pair, 0)? {
///     places.push((leaf.path.to_vec(), leaf.first));
/// }
/// assert_eq!(places, [(vec![0], 0), (vec![1], 8)]);
/// assert_eq!(module.slots(pair, 0)?, 0b101);
/// assert!(module.functions()?.functions.is_empty());
/// module.declarations()?;
/// # Ok::<(), Box<dyn std::error::Error>>(())
/// ```
#[derive(Debug)]
pub struct Module {
    /// Each call writes it.
    open: RefCell<OpenModule>,
    infos: Vec<TypeInfo>,
    /// The words of a module whose structs may be nested deeper than every stack allows, and its options.
    deep: Option<(Vec<u32>, Options)>,
}

impl Module {
    /// Validates a module in words, as [`check_words`](crate::check_words) does, and keeps it if it is accepted.
    ///
    /// # Errors
    ///
    /// The first rule that the module breaks, or why nothing is known of it.
    pub fn new(words: &[u32], options: &Options) -> Result<Module, Error> {
        let (status, mut open, outcome) = OpenModule::new(Subject { words, options });
        if status != sys::NAGA_CHECK_OK {
            return Err(error_of(status, &outcome));
        }
        let count = usize::try_from(outcome.types).map_err(|_| Error::OutOfMemory)?;
        Ok(Module {
            infos: infos_of(count, |infos| open.types(infos))?,
            open: RefCell::new(open),
            deep: may_be_deep(words).then(|| (words.to_vec(), *options)),
        })
    }

    /// What is known of each type.
    #[must_use]
    pub fn type_infos(&self) -> &[TypeInfo] {
        &self.infos
    }

    /// What is known of a type, if the module has it.
    #[must_use]
    pub fn type_info(&self, ty: Handle<Type>) -> Option<&TypeInfo> {
        self.infos.get(ty.index() as usize)
    }

    /// The leaves of a type: at which bytes of a buffer hosts put values. A runtime-sized array counts as `length`
    /// elements. They are counted first, so that memory is requested once.
    ///
    /// # Errors
    ///
    /// `NoType`, `OutOfMemory`, and `Limit` if there are more leaves than the options allow.
    pub fn leaves(&self, ty: Handle<Type>, length: u32) -> Result<Leaves, Error> {
        let mut open = self.open.borrow_mut();
        let types = [ty.index()];
        let counted = open.count_leaves(&types, length);
        leaves_of(counted, |leaves, paths| {
            open.leaves(&types, length, leaves, paths)
        })
    }

    /// The slots of immediate data that a value of a type uses from a byte on: bit `k` is 1 if the value has one of the
    /// bytes `4 * k` to `4 * k + 3`.
    ///
    /// # Errors
    ///
    /// `NoType`, `NotShareable`, and `OutOfMemory`.
    pub fn slots(&self, ty: Handle<Type>, offset: u32) -> Result<u64, Error> {
        // An open module stays on its thread, and nested structs may need the stack of another.
        if let Some((words, options)) = &self.deep {
            return slots(words, options, ty, offset);
        }
        match self.open.borrow_mut().slots(ty.index(), offset) {
            (sys::NAGA_CHECK_OK, slots, _) => Ok(slots),
            (status, _, outcome) => Err(error_of(status, &outcome)),
        }
    }

    /// Validates the expressions of the functions and entry points, as [`check_functions`](crate::check_functions) does.
    /// Each call validates them, and what they stand on, anew. Returns the pipeline stages that may use each.
    ///
    /// # Errors
    ///
    /// The first rule that the module breaks, with the stages of the functions before, or `OutOfMemory`.
    pub fn functions(&self) -> Result<FunctionStages, FunctionsError> {
        let mut open = self.open.borrow_mut();
        stages_of(0, |stages| open.functions(stages))
    }
    /// Validates what the module declares, as [`check_declarations`](crate::check_declarations) does. Each call validates
    /// it, and what it stands on, anew.
    ///
    /// # Errors
    ///
    /// The first rule that the module breaks, or `OutOfMemory`.
    pub fn declarations(&self) -> Result<(), Error> {
        let (status, outcome) = self.open.borrow_mut().declarations();
        declared(status, &outcome)
    }
}
