//! What is said of the stage of an entry point, as in naga.

use crate::operands::{words_of_values, Operand};
use crate::sys;

/// A stage of a pipeline.
#[derive(Clone, Copy, Debug, PartialEq, Eq, Hash)]
#[non_exhaustive]
#[repr(u32)]
pub enum ShaderStage {
    /// Of vertices.
    Vertex = sys::NAGA_CHECK_ENTRY_STAGE_VERTEX,
    /// Of workgroups that start mesh shaders.
    Task = sys::NAGA_CHECK_ENTRY_STAGE_TASK,
    /// Of workgroups that make meshes.
    Mesh = sys::NAGA_CHECK_ENTRY_STAGE_MESH,
    /// Of fragments.
    Fragment = sys::NAGA_CHECK_ENTRY_STAGE_FRAGMENT,
    /// Of workgroups that compute.
    Compute = sys::NAGA_CHECK_ENTRY_STAGE_COMPUTE,
    /// Of rays that begin.
    RayGeneration = sys::NAGA_CHECK_ENTRY_STAGE_RAY_GENERATION,
    /// Of rays that hit nothing.
    Miss = sys::NAGA_CHECK_ENTRY_STAGE_MISS,
    /// Of each hit of a ray.
    AnyHit = sys::NAGA_CHECK_ENTRY_STAGE_ANY_HIT,
    /// Of the closest hit of a ray.
    ClosestHit = sys::NAGA_CHECK_ENTRY_STAGE_CLOSEST_HIT,
}

/// What a fragment shader that writes depths promises of them.
#[derive(Clone, Copy, Debug, PartialEq, Eq, Hash)]
#[non_exhaustive]
#[repr(u32)]
pub enum ConservativeDepth {
    /// None is less than that of the primitive.
    GreaterEqual = sys::NAGA_CHECK_EARLY_DEPTH_TEST_GREATER_EQUAL,
    /// None is greater than that of the primitive.
    LessEqual = sys::NAGA_CHECK_EARLY_DEPTH_TEST_LESS_EQUAL,
    /// Each is that of the primitive.
    Unchanged = sys::NAGA_CHECK_EARLY_DEPTH_TEST_UNCHANGED,
}

/// Whether depths are tested before a fragment shader runs.
#[derive(Clone, Copy, Debug, PartialEq, Eq, Hash)]
#[non_exhaustive]
pub enum EarlyDepthTest {
    /// They are, whatever it writes.
    Force,
    /// They may be, since it keeps a promise.
    Allow {
        /// The promise.
        conservative: ConservativeDepth,
    },
}

/// The two words of a stage and of its test of depths.
pub(crate) struct EntryStage(
    pub(crate) Option<ShaderStage>,
    pub(crate) Option<EarlyDepthTest>,
);

impl EntryStage {
    /// Whether one of them is said.
    pub(crate) fn is_said(&self) -> bool {
        self.0.is_some() || self.1.is_some()
    }
}

impl Operand for EntryStage {
    fn write(&self, words: &mut Vec<u32>) {
        let stage = self
            .0
            .map_or(sys::NAGA_CHECK_ENTRY_STAGE_NONE, |it| it as u32);
        let test = match self.1 {
            None => sys::NAGA_CHECK_EARLY_DEPTH_TEST_NONE,
            Some(EarlyDepthTest::Force) => sys::NAGA_CHECK_EARLY_DEPTH_TEST_FORCE,
            Some(EarlyDepthTest::Allow { conservative }) => conservative as u32,
        };
        words.extend([stage, test]);
    }
}

/// What the primitives of a mesh shader are.
#[derive(Clone, Copy, Debug, PartialEq, Eq, Hash)]
#[non_exhaustive]
#[repr(u32)]
pub enum MeshOutputTopology {
    /// Points.
    Points = sys::NAGA_CHECK_TOPOLOGY_POINTS,
    /// Lines.
    Lines = sys::NAGA_CHECK_TOPOLOGY_LINES,
    /// Triangles.
    Triangles = sys::NAGA_CHECK_TOPOLOGY_TRIANGLES,
}

words_of_values!(MeshOutputTopology);
