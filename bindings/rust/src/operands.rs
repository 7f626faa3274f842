//! How the parts of items are written as words.

use crate::sys;
use std::fmt;
use std::hash::{Hash, Hasher};
use std::marker::PhantomData;

/// A part of an item that is one or more operands.
pub(crate) trait Operand {
    /// Adds its words.
    fn write(&self, words: &mut Vec<u32>);
}

/// The index of an item, with the kind of item as its type: naga's `Handle`.
///
/// An index may name what doesn't exist: the validator reports it.
pub struct Handle<T> {
    index: u32,
    kind: PhantomData<fn() -> T>,
}

impl<T> Handle<T> {
    /// The handle of an index, from 0.
    ///
    /// # Panics
    ///
    /// If the index is `u32::MAX`, the word for no handle.
    #[must_use]
    pub const fn new(index: u32) -> Handle<T> {
        assert!(
            index != sys::NAGA_CHECK_NONE,
            "no item has the index `u32::MAX`"
        );
        Handle {
            index,
            kind: PhantomData,
        }
    }

    /// The index, from 0.
    #[must_use]
    pub const fn index(self) -> u32 {
        self.index
    }
}

// The derived implementations would require the same of the kind of item.

impl<T> Clone for Handle<T> {
    fn clone(&self) -> Handle<T> {
        *self
    }
}

impl<T> Copy for Handle<T> {}

impl<T> PartialEq for Handle<T> {
    fn eq(&self, other: &Handle<T>) -> bool {
        self.index == other.index
    }
}

impl<T> Eq for Handle<T> {}

impl<T> Hash for Handle<T> {
    fn hash<H: Hasher>(&self, state: &mut H) {
        self.index.hash(state);
    }
}

impl<T> fmt::Debug for Handle<T> {
    fn fmt(&self, f: &mut fmt::Formatter<'_>) -> fmt::Result {
        write!(f, "[{}]", self.index)
    }
}

impl<T> Operand for Handle<T> {
    fn write(&self, words: &mut Vec<u32>) {
        words.push(self.index);
    }
}

impl Operand for u32 {
    fn write(&self, words: &mut Vec<u32>) {
        words.push(*self);
    }
}

impl Operand for bool {
    fn write(&self, words: &mut Vec<u32>) {
        words.push(u32::from(*self));
    }
}

/// The bytes of a text, after their number.
impl Operand for str {
    fn write(&self, words: &mut Vec<u32>) {
        // A text too long for its number is too long for an item too, which `Words` notices.
        words.push(u32::try_from(self.len()).unwrap_or(u32::MAX));
        words.extend(self.as_bytes().chunks(4).map(|bytes| {
            let mut word = [0; 4];
            word[..bytes.len()].copy_from_slice(bytes);
            u32::from_le_bytes(word)
        }));
    }
}

impl Operand for String {
    fn write(&self, words: &mut Vec<u32>) {
        self.as_str().write(words);
    }
}

impl<T: Operand> Operand for Option<T> {
    fn write(&self, words: &mut Vec<u32>) {
        match self {
            Some(operand) => operand.write(words),
            None => words.push(sys::NAGA_CHECK_NONE),
        }
    }
}

impl<T: Operand> Operand for [T] {
    fn write(&self, words: &mut Vec<u32>) {
        for operand in self {
            operand.write(words);
        }
    }
}

impl<T: Operand, const N: usize> Operand for [T; N] {
    fn write(&self, words: &mut Vec<u32>) {
        self.as_slice().write(words);
    }
}

impl<T: Operand> Operand for Vec<T> {
    fn write(&self, words: &mut Vec<u32>) {
        self.as_slice().write(words);
    }
}

/// Writes enums whose values are the words themselves.
macro_rules! words_of_values {
    ($($name:ident),+ $(,)?) => {
        $(
            impl $crate::operands::Operand for $name {
                fn write(&self, words: &mut Vec<u32>) {
                    words.push(*self as u32);
                }
            }
        )+
    };
}

/// Makes a struct of bools a set, whose word is the sum of the bits of those that are true.
macro_rules! sums_of_bits {
    ($name:ident { $( $field:ident = $bit:path, )+ }) => {
        impl $name {
            /// What one or the other has, as `|` in constants.
            #[must_use]
            pub const fn union(self, other: $name) -> $name {
                $name { $( $field: self.$field | other.$field, )+ }
            }

            /// The sum of the bits.
            pub(crate) fn word(self) -> u32 {
                0 $( + u32::from(self.$field) * $bit )+
            }
        }

        impl std::ops::BitOr for $name {
            type Output = $name;

            fn bitor(self, other: $name) -> $name {
                self.union(other)
            }
        }

        impl std::ops::BitOrAssign for $name {
            fn bitor_assign(&mut self, other: $name) {
                *self = *self | other;
            }
        }
    };
}

/// Declares an enum of items. After `=` are the number of a variant and its operands in the order of the words.
macro_rules! items {
    (
        $(#[$about:meta])*
        pub enum $name:ident {
            $(
                $(#[$doc:meta])*
                $variant:ident
                $( ( $inner:ident: $inner_type:ty ) )?
                $( { $( $(#[$field_doc:meta])* $field:ident: $field_type:ty, )+ } )?
                = $number:path [ $($operand:expr),* ],
            )+
        }
    ) => {
        $(#[$about])*
        pub enum $name {
            $(
                $(#[$doc])*
                $variant
                $( ( $inner_type ) )?
                $( { $( $(#[$field_doc])* $field: $field_type, )+ } )?,
            )+
        }

        impl $name {
            /// The number of the variant.
            pub(crate) fn number(&self) -> u32 {
                match self {
                    $( Self::$variant { .. } => $number, )+
                }
            }
        }

        impl $crate::operands::Operand for $name {
            // Blocks are no operands, but items of their own.
            #[allow(unused_variables)]
            fn write(&self, words: &mut Vec<u32>) {
                match self {
                    $(
                        Self::$variant $( ( $inner ) )? $( { $($field),+ } )? => {
                            $( $operand.write(words); )*
                        }
                    )+
                }
            }
        }
    };
}

/// Declares methods that each set a field that may be left out, and return the item.
macro_rules! builders {
    ($name:ident { $( $(#[$doc:meta])* $builder:ident($field:ident: $field_type:ty), )+ }) => {
        impl $name {
            $(
                $(#[$doc])*
                #[must_use]
                pub fn $builder(mut self, $field: $field_type) -> $name {
                    self.$field = Some($field.into());
                    self
                }
            )+
        }
    };
}

/// Declares methods that each set a field that is always there, and return the item.
macro_rules! setters {
    ($name:ident { $( $(#[$doc:meta])* $setter:ident($field:ident: $field_type:ty), )+ }) => {
        impl $name {
            $(
                $(#[$doc])*
                #[must_use]
                pub fn $setter(mut self, $field: $field_type) -> $name {
                    self.$field = $field;
                    self
                }
            )+
        }
    };
}

pub(crate) use {builders, items, setters, sums_of_bits, words_of_values};
