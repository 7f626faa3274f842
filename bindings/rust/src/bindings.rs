//! Where values and resources come from and go to outside of a shader, as in naga.

use crate::built_in::BuiltIn;
use crate::operands::{sums_of_bits, Operand};
use crate::sys;

/// How the values of the vertices of a primitive become that of a fragment (WGSL, "Interpolation").
#[derive(Clone, Copy, Debug, PartialEq, Eq, Hash)]
#[non_exhaustive]
#[repr(u32)]
pub enum Interpolation {
    /// In proportion to the distances, with the correction for perspective.
    Perspective = sys::NAGA_CHECK_INTERPOLATION_PERSPECTIVE,
    /// In proportion to the distances on the screen.
    Linear = sys::NAGA_CHECK_INTERPOLATION_LINEAR,
    /// One of them is taken as it is.
    Flat = sys::NAGA_CHECK_INTERPOLATION_FLAT,
    /// The fragment gets all of them.
    PerVertex = sys::NAGA_CHECK_INTERPOLATION_PER_VERTEX,
}

/// Where in a fragment a value is taken, or of which vertex if it is flat (WGSL, "Interpolation").
#[derive(Clone, Copy, Debug, PartialEq, Eq, Hash)]
#[non_exhaustive]
#[repr(u32)]
pub enum Sampling {
    /// In the middle of the pixel.
    Center = sys::NAGA_CHECK_SAMPLING_CENTER,
    /// At a point that the primitive covers.
    Centroid = sys::NAGA_CHECK_SAMPLING_CENTROID,
    /// At each sample.
    Sample = sys::NAGA_CHECK_SAMPLING_SAMPLE,
    /// Of the first vertex.
    First = sys::NAGA_CHECK_SAMPLING_FIRST,
    /// Of the first or the last vertex.
    Either = sys::NAGA_CHECK_SAMPLING_EITHER,
}

/// Where a value comes from or goes to outside of the shader.
///
/// ```
/// use naga_check::{Binding, Interpolation};
///
/// let flat = Binding::Location {
///     location: 3,
///     interpolation: Some(Interpolation::Flat),
///     sampling: None,
///     blend_src: None,
///     per_primitive: false,
/// };
/// assert_ne!(flat, Binding::location(3));
/// ```
#[derive(Clone, Copy, Debug, PartialEq, Eq, Hash)]
#[non_exhaustive]
pub enum Binding {
    /// A value that the pipeline itself gives or takes.
    BuiltIn(BuiltIn),
    /// A value that the stage before or after gives or takes.
    Location {
        /// The number of the location.
        location: u32,
        /// How the value of a fragment is made, if that is said.
        interpolation: Option<Interpolation>,
        /// Where the value of a fragment is taken, if that is said.
        sampling: Option<Sampling>,
        /// Which of two sources of blending an output is, if there are two: 0 or 1.
        blend_src: Option<u32>,
        /// Whether a mesh shader gives one value to each primitive, and not to each vertex.
        per_primitive: bool,
    },
}

impl Binding {
    /// The location of a number, and nothing said of interpolation, sampling, blending and primitives.
    #[must_use]
    pub const fn location(location: u32) -> Binding {
        Binding::Location {
            location,
            interpolation: None,
            sampling: None,
            blend_src: None,
            per_primitive: false,
        }
    }
}

/// The three words of where a value comes from or goes to.
pub(crate) struct OptionalBinding(pub(crate) Option<Binding>);

impl Operand for OptionalBinding {
    fn write(&self, words: &mut Vec<u32>) {
        words.extend(match self.0 {
            None => [sys::NAGA_CHECK_BINDING_NONE, 0, 0],
            Some(Binding::BuiltIn(value)) => [sys::NAGA_CHECK_BINDING_BUILT_IN, value.number(), 0],
            Some(Binding::Location {
                location,
                interpolation,
                sampling,
                blend_src,
                per_primitive,
            }) => {
                let form = match blend_src {
                    None => sys::NAGA_CHECK_BINDING_LOCATION,
                    Some(_) => sys::NAGA_CHECK_BINDING_BLEND_SOURCE,
                };
                let made = interpolation.map_or(sys::NAGA_CHECK_INTERPOLATION_NONE, |it| it as u32);
                let taken = sampling.map_or(sys::NAGA_CHECK_SAMPLING_NONE, |it| it as u32);
                let of_primitive = u32::from(per_primitive);
                let form = form | made << 8 | taken << 16 | of_primitive << 24;
                [form, location, blend_src.unwrap_or(0)]
            }
        });
    }
}

/// Where a pipeline binds a resource (WGSL, "Resource Interface").
#[derive(Clone, Copy, Debug, PartialEq, Eq, Hash)]
#[non_exhaustive]
pub struct ResourceBinding {
    /// The number of the bind group.
    pub group: u32,
    /// The number of the binding in its group.
    pub binding: u32,
}

impl ResourceBinding {
    /// The binding of this number in the group of that number.
    #[must_use]
    pub const fn new(group: u32, binding: u32) -> ResourceBinding {
        ResourceBinding { group, binding }
    }
}

/// The three words of where a pipeline binds a resource.
pub(crate) struct OptionalResourceBinding(pub(crate) Option<ResourceBinding>);

impl Operand for OptionalResourceBinding {
    fn write(&self, words: &mut Vec<u32>) {
        words.extend(match self.0 {
            None => [0; 3],
            Some(ResourceBinding { group, binding }) => [1, group, binding],
        });
    }
}

/// What holds of each access to a variable in a buffer: naga's `MemoryDecorations`.
#[derive(Clone, Copy, Debug, Default, PartialEq, Eq, Hash)]
#[non_exhaustive]
pub struct MemoryDecorations {
    /// Other invocations see what is written.
    pub coherent: bool,
    /// The value may change at any time.
    pub is_volatile: bool,
}

impl MemoryDecorations {
    /// Nothing more than of any variable.
    pub(crate) const NONE: MemoryDecorations = MemoryDecorations {
        coherent: false,
        is_volatile: false,
    };
    /// Other invocations see what is written.
    pub const COHERENT: MemoryDecorations = MemoryDecorations {
        coherent: true,
        is_volatile: false,
    };
    /// The value may change at any time.
    pub const VOLATILE: MemoryDecorations = MemoryDecorations {
        coherent: false,
        is_volatile: true,
    };
}

sums_of_bits! {
    MemoryDecorations {
        coherent = sys::NAGA_CHECK_MEMORY_DECORATION_COHERENT,
        is_volatile = sys::NAGA_CHECK_MEMORY_DECORATION_VOLATILE,
    }
}
