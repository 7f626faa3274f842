//! The values that a pipeline itself gives to shaders or takes from them, as in naga.

use crate::sys;

/// A value that the pipeline itself gives or takes (WGSL, "Built-in Inputs and Outputs").
#[derive(Clone, Copy, Debug, PartialEq, Eq, Hash)]
#[non_exhaustive]
pub enum BuiltIn {
    /// The position of a vertex in clip space, or of a fragment.
    Position {
        /// Whether equal computations give equal bits.
        invariant: bool,
    },
    /// The index of the view, of several.
    ViewIndex,
    /// The index of the first instance.
    BaseInstance,
    /// What is added to an index to get that of a vertex.
    BaseVertex,
    /// Distances to planes at which primitives are cut.
    ClipDistances,
    /// Distances to planes behind which primitives are left out.
    CullDistance,
    /// The index of the instance.
    InstanceIndex,
    /// The size of a point.
    PointSize,
    /// The index of the vertex.
    VertexIndex,
    /// The index of the draw call, of several.
    DrawIndex,
    /// The depth of a fragment.
    FragDepth,
    /// Where in a point a fragment is.
    PointCoord,
    /// Whether a fragment is of a front face.
    FrontFacing,
    /// The index of the primitive.
    PrimitiveIndex,
    /// Where in its triangle a fragment is.
    Barycentric {
        /// Whether with the correction for perspective.
        perspective: bool,
    },
    /// The index of the sample.
    SampleIndex,
    /// The samples that a fragment covers.
    SampleMask,
    /// The place of the invocation in the grid.
    GlobalInvocationId,
    /// The place of the invocation in its workgroup.
    LocalInvocationId,
    /// The index of the invocation in its workgroup.
    LocalInvocationIndex,
    /// The place of the workgroup in the grid.
    WorkGroupId,
    /// The size of a workgroup.
    WorkGroupSize,
    /// How many workgroups there are.
    NumWorkGroups,
    /// How many subgroups the workgroup has.
    NumSubgroups,
    /// The index of the subgroup in its workgroup.
    SubgroupId,
    /// The size of a subgroup.
    SubgroupSize,
    /// The index of the invocation in its subgroup.
    SubgroupInvocationId,
    /// How many mesh workgroups a task shader starts.
    MeshTaskSize,
    /// Whether a primitive of a mesh is left out.
    CullPrimitive,
    /// The vertex of a point of a mesh.
    PointIndex,
    /// The vertices of a line of a mesh.
    LineIndices,
    /// The vertices of a triangle of a mesh.
    TriangleIndices,
    /// How many vertices a mesh has.
    VertexCount,
    /// The vertices of a mesh.
    Vertices,
    /// How many primitives a mesh has.
    PrimitiveCount,
    /// The primitives of a mesh.
    Primitives,
    /// The place of the ray in the grid.
    RayInvocationId,
    /// How many rays there are.
    NumRayInvocations,
    /// What the host said of the instance.
    InstanceCustomData,
    /// The index of the geometry.
    GeometryIndex,
    /// Where the ray begins, in the world.
    WorldRayOrigin,
    /// Where the ray goes, in the world.
    WorldRayDirection,
    /// Where the ray begins, in the space of the object.
    ObjectRayOrigin,
    /// Where the ray goes, in the space of the object.
    ObjectRayDirection,
    /// The least distance along the ray.
    RayTmin,
    /// The greatest distance along the ray so far.
    RayTCurrentMax,
    /// From the space of the object to the world.
    ObjectToWorld,
    /// From the world to the space of the object.
    WorldToObject,
    /// What was hit.
    HitKind,
}

impl BuiltIn {
    /// All of them.
    pub(crate) const ALL: [BuiltIn; 51] = [
        BuiltIn::Position { invariant: false },
        BuiltIn::Position { invariant: true },
        BuiltIn::ViewIndex,
        BuiltIn::BaseInstance,
        BuiltIn::BaseVertex,
        BuiltIn::ClipDistances,
        BuiltIn::CullDistance,
        BuiltIn::InstanceIndex,
        BuiltIn::PointSize,
        BuiltIn::VertexIndex,
        BuiltIn::DrawIndex,
        BuiltIn::FragDepth,
        BuiltIn::PointCoord,
        BuiltIn::FrontFacing,
        BuiltIn::PrimitiveIndex,
        BuiltIn::Barycentric { perspective: false },
        BuiltIn::Barycentric { perspective: true },
        BuiltIn::SampleIndex,
        BuiltIn::SampleMask,
        BuiltIn::GlobalInvocationId,
        BuiltIn::LocalInvocationId,
        BuiltIn::LocalInvocationIndex,
        BuiltIn::WorkGroupId,
        BuiltIn::WorkGroupSize,
        BuiltIn::NumWorkGroups,
        BuiltIn::NumSubgroups,
        BuiltIn::SubgroupId,
        BuiltIn::SubgroupSize,
        BuiltIn::SubgroupInvocationId,
        BuiltIn::MeshTaskSize,
        BuiltIn::CullPrimitive,
        BuiltIn::PointIndex,
        BuiltIn::LineIndices,
        BuiltIn::TriangleIndices,
        BuiltIn::VertexCount,
        BuiltIn::Vertices,
        BuiltIn::PrimitiveCount,
        BuiltIn::Primitives,
        BuiltIn::RayInvocationId,
        BuiltIn::NumRayInvocations,
        BuiltIn::InstanceCustomData,
        BuiltIn::GeometryIndex,
        BuiltIn::WorldRayOrigin,
        BuiltIn::WorldRayDirection,
        BuiltIn::ObjectRayOrigin,
        BuiltIn::ObjectRayDirection,
        BuiltIn::RayTmin,
        BuiltIn::RayTCurrentMax,
        BuiltIn::ObjectToWorld,
        BuiltIn::WorldToObject,
        BuiltIn::HitKind,
    ];

    /// Its number in words.
    pub(crate) fn number(self) -> u32 {
        match self {
            BuiltIn::Position { invariant: false } => sys::NAGA_CHECK_BUILT_IN_POSITION,
            BuiltIn::Position { invariant: true } => sys::NAGA_CHECK_BUILT_IN_POSITION_INVARIANT,
            BuiltIn::ViewIndex => sys::NAGA_CHECK_BUILT_IN_VIEW_INDEX,
            BuiltIn::BaseInstance => sys::NAGA_CHECK_BUILT_IN_BASE_INSTANCE,
            BuiltIn::BaseVertex => sys::NAGA_CHECK_BUILT_IN_BASE_VERTEX,
            BuiltIn::ClipDistances => sys::NAGA_CHECK_BUILT_IN_CLIP_DISTANCES,
            BuiltIn::CullDistance => sys::NAGA_CHECK_BUILT_IN_CULL_DISTANCE,
            BuiltIn::InstanceIndex => sys::NAGA_CHECK_BUILT_IN_INSTANCE_INDEX,
            BuiltIn::PointSize => sys::NAGA_CHECK_BUILT_IN_POINT_SIZE,
            BuiltIn::VertexIndex => sys::NAGA_CHECK_BUILT_IN_VERTEX_INDEX,
            BuiltIn::DrawIndex => sys::NAGA_CHECK_BUILT_IN_DRAW_INDEX,
            BuiltIn::FragDepth => sys::NAGA_CHECK_BUILT_IN_FRAG_DEPTH,
            BuiltIn::PointCoord => sys::NAGA_CHECK_BUILT_IN_POINT_COORD,
            BuiltIn::FrontFacing => sys::NAGA_CHECK_BUILT_IN_FRONT_FACING,
            BuiltIn::PrimitiveIndex => sys::NAGA_CHECK_BUILT_IN_PRIMITIVE_INDEX,
            BuiltIn::Barycentric { perspective: false } => sys::NAGA_CHECK_BUILT_IN_BARYCENTRIC,
            BuiltIn::Barycentric { perspective: true } => {
                sys::NAGA_CHECK_BUILT_IN_BARYCENTRIC_PERSPECTIVE
            }
            BuiltIn::SampleIndex => sys::NAGA_CHECK_BUILT_IN_SAMPLE_INDEX,
            BuiltIn::SampleMask => sys::NAGA_CHECK_BUILT_IN_SAMPLE_MASK,
            BuiltIn::GlobalInvocationId => sys::NAGA_CHECK_BUILT_IN_GLOBAL_INVOCATION_ID,
            BuiltIn::LocalInvocationId => sys::NAGA_CHECK_BUILT_IN_LOCAL_INVOCATION_ID,
            BuiltIn::LocalInvocationIndex => sys::NAGA_CHECK_BUILT_IN_LOCAL_INVOCATION_INDEX,
            BuiltIn::WorkGroupId => sys::NAGA_CHECK_BUILT_IN_WORK_GROUP_ID,
            BuiltIn::WorkGroupSize => sys::NAGA_CHECK_BUILT_IN_WORK_GROUP_SIZE,
            BuiltIn::NumWorkGroups => sys::NAGA_CHECK_BUILT_IN_NUM_WORK_GROUPS,
            BuiltIn::NumSubgroups => sys::NAGA_CHECK_BUILT_IN_NUM_SUBGROUPS,
            BuiltIn::SubgroupId => sys::NAGA_CHECK_BUILT_IN_SUBGROUP_ID,
            BuiltIn::SubgroupSize => sys::NAGA_CHECK_BUILT_IN_SUBGROUP_SIZE,
            BuiltIn::SubgroupInvocationId => sys::NAGA_CHECK_BUILT_IN_SUBGROUP_INVOCATION_ID,
            BuiltIn::MeshTaskSize => sys::NAGA_CHECK_BUILT_IN_MESH_TASK_SIZE,
            BuiltIn::CullPrimitive => sys::NAGA_CHECK_BUILT_IN_CULL_PRIMITIVE,
            BuiltIn::PointIndex => sys::NAGA_CHECK_BUILT_IN_POINT_INDEX,
            BuiltIn::LineIndices => sys::NAGA_CHECK_BUILT_IN_LINE_INDICES,
            BuiltIn::TriangleIndices => sys::NAGA_CHECK_BUILT_IN_TRIANGLE_INDICES,
            BuiltIn::VertexCount => sys::NAGA_CHECK_BUILT_IN_VERTEX_COUNT,
            BuiltIn::Vertices => sys::NAGA_CHECK_BUILT_IN_VERTICES,
            BuiltIn::PrimitiveCount => sys::NAGA_CHECK_BUILT_IN_PRIMITIVE_COUNT,
            BuiltIn::Primitives => sys::NAGA_CHECK_BUILT_IN_PRIMITIVES,
            BuiltIn::RayInvocationId => sys::NAGA_CHECK_BUILT_IN_RAY_INVOCATION_ID,
            BuiltIn::NumRayInvocations => sys::NAGA_CHECK_BUILT_IN_NUM_RAY_INVOCATIONS,
            BuiltIn::InstanceCustomData => sys::NAGA_CHECK_BUILT_IN_INSTANCE_CUSTOM_DATA,
            BuiltIn::GeometryIndex => sys::NAGA_CHECK_BUILT_IN_GEOMETRY_INDEX,
            BuiltIn::WorldRayOrigin => sys::NAGA_CHECK_BUILT_IN_WORLD_RAY_ORIGIN,
            BuiltIn::WorldRayDirection => sys::NAGA_CHECK_BUILT_IN_WORLD_RAY_DIRECTION,
            BuiltIn::ObjectRayOrigin => sys::NAGA_CHECK_BUILT_IN_OBJECT_RAY_ORIGIN,
            BuiltIn::ObjectRayDirection => sys::NAGA_CHECK_BUILT_IN_OBJECT_RAY_DIRECTION,
            BuiltIn::RayTmin => sys::NAGA_CHECK_BUILT_IN_RAY_TMIN,
            BuiltIn::RayTCurrentMax => sys::NAGA_CHECK_BUILT_IN_RAY_T_CURRENT_MAX,
            BuiltIn::ObjectToWorld => sys::NAGA_CHECK_BUILT_IN_OBJECT_TO_WORLD,
            BuiltIn::WorldToObject => sys::NAGA_CHECK_BUILT_IN_WORLD_TO_OBJECT,
            BuiltIn::HitKind => sys::NAGA_CHECK_BUILT_IN_HIT_KIND,
        }
    }
}
