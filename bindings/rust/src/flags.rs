//! The sets of flags: what is validated, what shaders may use, what types may be used for, and stages.

use crate::sys;
use std::fmt;
use std::ops::{BitOr, BitOrAssign};

/// Declares a set of flags as a number whose bits are the flags.
macro_rules! flags {
    (
        $(#[$about:meta])*
        pub struct $name:ident($bits:ty) {
            $( $(#[$doc:meta])* $flag:ident = $value:path, )+
        }
    ) => {
        $(#[$about])*
        #[derive(Clone, Copy, PartialEq, Eq, Hash)]
        pub struct $name($bits);

        impl $name {
            $( $(#[$doc])* pub const $flag: $name = $name($value); )+

            /// No flags.
            pub const EMPTY: $name = $name(0);

            /// All flags that have names.
            pub const ALL: $name = $name(0 $( | $value )+);

            /// The set of these bits. A module in words may have those of `ALL`.
            #[must_use]
            pub const fn from_bits(bits: $bits) -> $name {
                $name(bits)
            }

            /// The bits of the set.
            #[must_use]
            pub const fn bits(self) -> $bits {
                self.0
            }

            /// Whether all flags of the other set are in this one.
            #[must_use]
            pub const fn contains(self, other: $name) -> bool {
                self.0 & other.0 == other.0
            }

            /// Whether there is no flag.
            #[must_use]
            pub const fn is_empty(self) -> bool {
                self.0 == 0
            }
        }

        impl BitOr for $name {
            type Output = $name;

            fn bitor(self, other: $name) -> $name {
                $name(self.0 | other.0)
            }
        }

        impl BitOrAssign for $name {
            fn bitor_assign(&mut self, other: $name) {
                self.0 |= other.0;
            }
        }

        impl fmt::Debug for $name {
            fn fmt(&self, f: &mut fmt::Formatter<'_>) -> fmt::Result {
                let named = [$( ($name::$flag, stringify!($flag)) ),+];
                write_flags(f, stringify!($name), self.0.into(), named.map(|(flag, name)| (flag.0.into(), name)))
            }
        }
    };
}

/// Writes the names of a set's flags, as in `Capabilities(RAY_QUERY | SUBGROUP)`, and the bits without a name as a
/// number.
fn write_flags(
    f: &mut fmt::Formatter<'_>,
    set: &str,
    bits: u64,
    named: impl IntoIterator<Item = (u64, &'static str)>,
) -> fmt::Result {
    write!(f, "{set}(")?;
    let mut left = bits;
    let mut before = "";
    for (flag, name) in named {
        if left & flag == flag {
            write!(f, "{before}{name}")?;
            left &= !flag;
            before = " | ";
        }
    }
    if left != 0 || bits == 0 {
        write!(f, "{before}{left:#x}")?;
    }
    f.write_str(")")
}

flags! {
    /// Which parts of a module are validated: naga's `ValidationFlags`.
    pub struct ValidationFlags(u32) {
        /// Expressions of functions.
        EXPRESSIONS = sys::NAGA_CHECK_VALIDATE_EXPRESSIONS,
        /// Statements and the blocks that they stand in.
        BLOCKS = sys::NAGA_CHECK_VALIDATE_BLOCKS,
        /// Uniformity of control flow where derivatives or barriers need it.
        CONTROL_FLOW_UNIFORMITY = sys::NAGA_CHECK_VALIDATE_CONTROL_FLOW_UNIFORMITY,
        /// Layouts of structs that hosts share.
        STRUCT_LAYOUTS = sys::NAGA_CHECK_VALIDATE_STRUCT_LAYOUTS,
        /// Global expressions, constants and overrides.
        CONSTANTS = sys::NAGA_CHECK_VALIDATE_CONSTANTS,
        /// Bindings of global variables and of entry points.
        BINDINGS = sys::NAGA_CHECK_VALIDATE_BINDINGS,
    }
}

/// All flags.
impl Default for ValidationFlags {
    fn default() -> ValidationFlags {
        ValidationFlags::ALL
    }
}

flags! {
    /// What a shader may use beyond the core of the language: naga's `Capabilities`.
    pub struct Capabilities(u64) {
        /// Immediates, small values that come with a draw or dispatch call.
        IMMEDIATES = sys::NAGA_CHECK_CAPABILITY_IMMEDIATES,
        /// Floating-point numbers of 64 bits.
        FLOAT64 = sys::NAGA_CHECK_CAPABILITY_FLOAT64,
        /// The index of a primitive, as a built-in value.
        PRIMITIVE_INDEX = sys::NAGA_CHECK_CAPABILITY_PRIMITIVE_INDEX,
        /// Binding arrays of sampled textures and samplers.
        TEXTURE_AND_SAMPLER_BINDING_ARRAY = sys::NAGA_CHECK_CAPABILITY_TEXTURE_AND_SAMPLER_BINDING_ARRAY,
        /// Binding arrays of uniform buffers.
        BUFFER_BINDING_ARRAY = sys::NAGA_CHECK_CAPABILITY_BUFFER_BINDING_ARRAY,
        /// Binding arrays of storage textures.
        STORAGE_TEXTURE_BINDING_ARRAY = sys::NAGA_CHECK_CAPABILITY_STORAGE_TEXTURE_BINDING_ARRAY,
        /// Binding arrays of storage buffers.
        STORAGE_BUFFER_BINDING_ARRAY = sys::NAGA_CHECK_CAPABILITY_STORAGE_BUFFER_BINDING_ARRAY,
        /// Clip distances, as a built-in value.
        CLIP_DISTANCES = sys::NAGA_CHECK_CAPABILITY_CLIP_DISTANCES,
        /// Cull distances, as a built-in value.
        CULL_DISTANCE = sys::NAGA_CHECK_CAPABILITY_CULL_DISTANCE,
        /// Storage textures of normalized 16-bit formats.
        STORAGE_TEXTURE_16BIT_NORM_FORMATS = sys::NAGA_CHECK_CAPABILITY_STORAGE_TEXTURE_16BIT_NORM_FORMATS,
        /// Rendering to several views at once.
        MULTIVIEW = sys::NAGA_CHECK_CAPABILITY_MULTIVIEW,
        /// Depth tests before the fragment shader.
        EARLY_DEPTH_TEST = sys::NAGA_CHECK_CAPABILITY_EARLY_DEPTH_TEST,
        /// Shading by the sample.
        MULTISAMPLED_SHADING = sys::NAGA_CHECK_CAPABILITY_MULTISAMPLED_SHADING,
        /// Ray queries and acceleration structures.
        RAY_QUERY = sys::NAGA_CHECK_CAPABILITY_RAY_QUERY,
        /// Two sources for blending.
        DUAL_SOURCE_BLENDING = sys::NAGA_CHECK_CAPABILITY_DUAL_SOURCE_BLENDING,
        /// Arrays of cube textures.
        CUBE_ARRAY_TEXTURES = sys::NAGA_CHECK_CAPABILITY_CUBE_ARRAY_TEXTURES,
        /// Integers of 64 bits.
        SHADER_INT64 = sys::NAGA_CHECK_CAPABILITY_SHADER_INT64,
        /// Subgroup operations in fragment and compute shaders.
        SUBGROUP = sys::NAGA_CHECK_CAPABILITY_SUBGROUP,
        /// Subgroup barriers.
        SUBGROUP_BARRIER = sys::NAGA_CHECK_CAPABILITY_SUBGROUP_BARRIER,
        /// Subgroup operations in vertex shaders.
        SUBGROUP_VERTEX_STAGE = sys::NAGA_CHECK_CAPABILITY_SUBGROUP_VERTEX_STAGE,
        /// Minimum and maximum on atomic integers of 64 bits.
        SHADER_INT64_ATOMIC_MIN_MAX = sys::NAGA_CHECK_CAPABILITY_SHADER_INT64_ATOMIC_MIN_MAX,
        /// All operations on atomic integers of 64 bits.
        SHADER_INT64_ATOMIC_ALL_OPS = sys::NAGA_CHECK_CAPABILITY_SHADER_INT64_ATOMIC_ALL_OPS,
        /// Atomic floating-point numbers of 32 bits.
        SHADER_FLOAT32_ATOMIC = sys::NAGA_CHECK_CAPABILITY_SHADER_FLOAT32_ATOMIC,
        /// Atomic operations on textures.
        TEXTURE_ATOMIC = sys::NAGA_CHECK_CAPABILITY_TEXTURE_ATOMIC,
        /// Atomic operations on textures of 64-bit integers.
        TEXTURE_INT64_ATOMIC = sys::NAGA_CHECK_CAPABILITY_TEXTURE_INT64_ATOMIC,
        /// The vertex positions of a triangle that a ray hit.
        RAY_HIT_VERTEX_POSITION = sys::NAGA_CHECK_CAPABILITY_RAY_HIT_VERTEX_POSITION,
        /// Floating-point numbers of 16 bits.
        SHADER_FLOAT16 = sys::NAGA_CHECK_CAPABILITY_SHADER_FLOAT16,
        /// External textures.
        TEXTURE_EXTERNAL = sys::NAGA_CHECK_CAPABILITY_TEXTURE_EXTERNAL,
        /// Rounding to 16-bit floating-point numbers that stand in 32 bits.
        SHADER_FLOAT16_IN_FLOAT32 = sys::NAGA_CHECK_CAPABILITY_SHADER_FLOAT16_IN_FLOAT32,
        /// Barycentric coordinates, as a built-in value.
        SHADER_BARYCENTRICS = sys::NAGA_CHECK_CAPABILITY_SHADER_BARYCENTRICS,
        /// Mesh and task shaders.
        MESH_SHADER = sys::NAGA_CHECK_CAPABILITY_MESH_SHADER,
        /// Mesh shaders that emit points.
        MESH_SHADER_POINT_TOPOLOGY = sys::NAGA_CHECK_CAPABILITY_MESH_SHADER_POINT_TOPOLOGY,
        /// Non-uniform indexing of binding arrays of sampled textures and samplers.
        TEXTURE_AND_SAMPLER_BINDING_ARRAY_NON_UNIFORM_INDEXING
            = sys::NAGA_CHECK_CAPABILITY_TEXTURE_AND_SAMPLER_BINDING_ARRAY_NON_UNIFORM_INDEXING,
        /// Non-uniform indexing of binding arrays of uniform buffers.
        BUFFER_BINDING_ARRAY_NON_UNIFORM_INDEXING
            = sys::NAGA_CHECK_CAPABILITY_BUFFER_BINDING_ARRAY_NON_UNIFORM_INDEXING,
        /// Non-uniform indexing of binding arrays of storage textures.
        STORAGE_TEXTURE_BINDING_ARRAY_NON_UNIFORM_INDEXING
            = sys::NAGA_CHECK_CAPABILITY_STORAGE_TEXTURE_BINDING_ARRAY_NON_UNIFORM_INDEXING,
        /// Non-uniform indexing of binding arrays of storage buffers.
        STORAGE_BUFFER_BINDING_ARRAY_NON_UNIFORM_INDEXING
            = sys::NAGA_CHECK_CAPABILITY_STORAGE_BUFFER_BINDING_ARRAY_NON_UNIFORM_INDEXING,
        /// Cooperative matrices.
        COOPERATIVE_MATRIX = sys::NAGA_CHECK_CAPABILITY_COOPERATIVE_MATRIX,
        /// Inputs of fragment shaders with a value for each vertex.
        PER_VERTEX = sys::NAGA_CHECK_CAPABILITY_PER_VERTEX,
        /// Ray tracing pipelines and acceleration structures.
        RAY_TRACING_PIPELINE = sys::NAGA_CHECK_CAPABILITY_RAY_TRACING_PIPELINE,
        /// The index of a draw call, as a built-in value.
        DRAW_INDEX = sys::NAGA_CHECK_CAPABILITY_DRAW_INDEX,
        /// Binding arrays of acceleration structures.
        ACCELERATION_STRUCTURE_BINDING_ARRAY = sys::NAGA_CHECK_CAPABILITY_ACCELERATION_STRUCTURE_BINDING_ARRAY,
        /// Coherent memory.
        MEMORY_DECORATION_COHERENT = sys::NAGA_CHECK_CAPABILITY_MEMORY_DECORATION_COHERENT,
        /// Volatile memory.
        MEMORY_DECORATION_VOLATILE = sys::NAGA_CHECK_CAPABILITY_MEMORY_DECORATION_VOLATILE,
        /// Integers of 16 bits.
        SHADER_INT16 = sys::NAGA_CHECK_CAPABILITY_SHADER_INT16,
    }
}

const _: () = assert!(Capabilities::ALL.0 == sys::NAGA_CHECK_CAPABILITY_ALL);
const _: () = assert!(ValidationFlags::ALL.0 == sys::NAGA_CHECK_VALIDATE_ALL);

/// `MULTISAMPLED_SHADING` and `CUBE_ARRAY_TEXTURES`, as in naga.
impl Default for Capabilities {
    fn default() -> Capabilities {
        Capabilities(sys::NAGA_CHECK_CAPABILITY_DEFAULT)
    }
}

flags! {
    /// What a type may be used for: naga's `TypeFlags`.
    pub struct TypeFlags(u32) {
        /// Local variables, struct members, array elements and function arguments may be of the type.
        DATA = sys::NAGA_CHECK_TYPE_DATA,
        /// The size is fixed when a pipeline is created (WGSL "Fixed-Footprint Types").
        SIZED = sys::NAGA_CHECK_TYPE_SIZED,
        /// Values can be copied.
        COPY = sys::NAGA_CHECK_TYPE_COPY,
        /// Pipeline stages may pass values to one another, as inputs and outputs (WGSL "Input-output Locations").
        IO_SHAREABLE = sys::NAGA_CHECK_TYPE_IO_SHAREABLE,
        /// The host and the device may share values (WGSL "Host-shareable Types").
        HOST_SHAREABLE = sys::NAGA_CHECK_TYPE_HOST_SHAREABLE,
        /// The size is fixed when a shader module is created: no override decides it (WGSL "Fixed-Footprint Types").
        CREATION_RESOLVED = sys::NAGA_CHECK_TYPE_CREATION_RESOLVED,
        /// Functions may take values as arguments.
        ARGUMENT = sys::NAGA_CHECK_TYPE_ARGUMENT,
        /// Values can be created, loaded, stored, passed and returned (WGSL "Constructible Types").
        CONSTRUCTIBLE = sys::NAGA_CHECK_TYPE_CONSTRUCTIBLE,
    }
}

flags! {
    /// Stages of a pipeline: naga's `ShaderStages`.
    pub struct ShaderStages(u32) {
        /// Vertex shaders.
        VERTEX = sys::NAGA_CHECK_SHADER_STAGE_VERTEX,
        /// Fragment shaders.
        FRAGMENT = sys::NAGA_CHECK_SHADER_STAGE_FRAGMENT,
        /// Compute shaders.
        COMPUTE = sys::NAGA_CHECK_SHADER_STAGE_COMPUTE,
        /// Mesh shaders.
        MESH = sys::NAGA_CHECK_SHADER_STAGE_MESH,
        /// Task shaders.
        TASK = sys::NAGA_CHECK_SHADER_STAGE_TASK,
        /// Shaders that generate rays.
        RAY_GENERATION = sys::NAGA_CHECK_SHADER_STAGE_RAY_GENERATION,
        /// Shaders that accept or ignore a hit of a ray.
        ANY_HIT = sys::NAGA_CHECK_SHADER_STAGE_ANY_HIT,
        /// Shaders for the closest hit of a ray.
        CLOSEST_HIT = sys::NAGA_CHECK_SHADER_STAGE_CLOSEST_HIT,
        /// Shaders for rays that hit nothing.
        MISS = sys::NAGA_CHECK_SHADER_STAGE_MISS,
        /// Stages that run in workgroups: compute, mesh and task shaders.
        COMPUTE_LIKE = sys::NAGA_CHECK_SHADER_STAGE_COMPUTE_LIKE,
    }
}
