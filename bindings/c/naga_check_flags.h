/* naga_check: the flags of the C interface, which naga_check.h includes. They are naga's bits under naga's names. */
#ifndef NAGA_CHECK_FLAGS_H
#define NAGA_CHECK_FLAGS_H

#include <stdint.h>

/* The low and the high word of 64 bits, in the order in which an item has them. */
#define NAGA_CHECK_LOW(bits) ((uint32_t)((uint64_t)(bits) & 0xFFFFFFFFu))
#define NAGA_CHECK_HIGH(bits) ((uint32_t)((uint64_t)(bits) >> 32))

/* Which parts of a module are validated: naga's ValidationFlags. */
/* Expressions of functions. */
#define NAGA_CHECK_VALIDATE_EXPRESSIONS 0x1u
/* Statements and the blocks that they stand in. */
#define NAGA_CHECK_VALIDATE_BLOCKS 0x2u
/* Uniformity of control flow where derivatives or barriers need it. */
#define NAGA_CHECK_VALIDATE_CONTROL_FLOW_UNIFORMITY 0x4u
/* Layouts of structs that hosts share. */
#define NAGA_CHECK_VALIDATE_STRUCT_LAYOUTS 0x8u
/* Global expressions, constants and overrides. */
#define NAGA_CHECK_VALIDATE_CONSTANTS 0x10u
/* Bindings of global variables and of entry points. */
#define NAGA_CHECK_VALIDATE_BINDINGS 0x20u
/* All parts, as without the item: no other bits may be given. */
#define NAGA_CHECK_VALIDATE_ALL 0x3Fu

/* What a shader may use beyond the core of the language: naga's Capabilities. They have 64 bits: NAGA_CHECK_LOW and
 * NAGA_CHECK_HIGH give the two words of an item. */
/* Immediates, small values that come with a draw or dispatch call. */
#define NAGA_CHECK_CAPABILITY_IMMEDIATES UINT64_C(0x1)
/* Floating-point numbers of 64 bits. */
#define NAGA_CHECK_CAPABILITY_FLOAT64 UINT64_C(0x2)
/* The index of a primitive, as a built-in value. */
#define NAGA_CHECK_CAPABILITY_PRIMITIVE_INDEX UINT64_C(0x4)
/* Binding arrays of sampled textures and samplers. */
#define NAGA_CHECK_CAPABILITY_TEXTURE_AND_SAMPLER_BINDING_ARRAY UINT64_C(0x8)
/* Binding arrays of uniform buffers. */
#define NAGA_CHECK_CAPABILITY_BUFFER_BINDING_ARRAY UINT64_C(0x10)
/* Binding arrays of storage textures. */
#define NAGA_CHECK_CAPABILITY_STORAGE_TEXTURE_BINDING_ARRAY UINT64_C(0x20)
/* Binding arrays of storage buffers. */
#define NAGA_CHECK_CAPABILITY_STORAGE_BUFFER_BINDING_ARRAY UINT64_C(0x40)
/* Clip distances, as a built-in value. */
#define NAGA_CHECK_CAPABILITY_CLIP_DISTANCES UINT64_C(0x80)
/* Cull distances, as a built-in value. */
#define NAGA_CHECK_CAPABILITY_CULL_DISTANCE UINT64_C(0x100)
/* Storage textures of normalized 16-bit formats. */
#define NAGA_CHECK_CAPABILITY_STORAGE_TEXTURE_16BIT_NORM_FORMATS UINT64_C(0x200)
/* Rendering to several views at once. */
#define NAGA_CHECK_CAPABILITY_MULTIVIEW UINT64_C(0x400)
/* Depth tests before the fragment shader. */
#define NAGA_CHECK_CAPABILITY_EARLY_DEPTH_TEST UINT64_C(0x800)
/* Shading by the sample. */
#define NAGA_CHECK_CAPABILITY_MULTISAMPLED_SHADING UINT64_C(0x1000)
/* Ray queries and acceleration structures. */
#define NAGA_CHECK_CAPABILITY_RAY_QUERY UINT64_C(0x2000)
/* Two sources for blending. */
#define NAGA_CHECK_CAPABILITY_DUAL_SOURCE_BLENDING UINT64_C(0x4000)
/* Arrays of cube textures. */
#define NAGA_CHECK_CAPABILITY_CUBE_ARRAY_TEXTURES UINT64_C(0x8000)
/* Integers of 64 bits. */
#define NAGA_CHECK_CAPABILITY_SHADER_INT64 UINT64_C(0x10000)
/* Subgroup operations in fragment and compute shaders. */
#define NAGA_CHECK_CAPABILITY_SUBGROUP UINT64_C(0x20000)
/* Subgroup barriers. */
#define NAGA_CHECK_CAPABILITY_SUBGROUP_BARRIER UINT64_C(0x40000)
/* Subgroup operations in vertex shaders. */
#define NAGA_CHECK_CAPABILITY_SUBGROUP_VERTEX_STAGE UINT64_C(0x80000)
/* Minimum and maximum on atomic integers of 64 bits. */
#define NAGA_CHECK_CAPABILITY_SHADER_INT64_ATOMIC_MIN_MAX UINT64_C(0x100000)
/* All operations on atomic integers of 64 bits. */
#define NAGA_CHECK_CAPABILITY_SHADER_INT64_ATOMIC_ALL_OPS UINT64_C(0x200000)
/* Atomic floating-point numbers of 32 bits. */
#define NAGA_CHECK_CAPABILITY_SHADER_FLOAT32_ATOMIC UINT64_C(0x400000)
/* Atomic operations on textures. */
#define NAGA_CHECK_CAPABILITY_TEXTURE_ATOMIC UINT64_C(0x800000)
/* Atomic operations on textures of 64-bit integers. */
#define NAGA_CHECK_CAPABILITY_TEXTURE_INT64_ATOMIC UINT64_C(0x1000000)
/* The vertex positions of a triangle that a ray hit. */
#define NAGA_CHECK_CAPABILITY_RAY_HIT_VERTEX_POSITION UINT64_C(0x2000000)
/* Floating-point numbers of 16 bits. */
#define NAGA_CHECK_CAPABILITY_SHADER_FLOAT16 UINT64_C(0x4000000)
/* External textures. */
#define NAGA_CHECK_CAPABILITY_TEXTURE_EXTERNAL UINT64_C(0x8000000)
/* Rounding to 16-bit floating-point numbers that stand in 32 bits. */
#define NAGA_CHECK_CAPABILITY_SHADER_FLOAT16_IN_FLOAT32 UINT64_C(0x10000000)
/* Barycentric coordinates, as a built-in value. */
#define NAGA_CHECK_CAPABILITY_SHADER_BARYCENTRICS UINT64_C(0x20000000)
/* Mesh and task shaders. */
#define NAGA_CHECK_CAPABILITY_MESH_SHADER UINT64_C(0x40000000)
/* Mesh shaders that emit points. */
#define NAGA_CHECK_CAPABILITY_MESH_SHADER_POINT_TOPOLOGY UINT64_C(0x80000000)
/* Non-uniform indexing of binding arrays of sampled textures and samplers. */
#define NAGA_CHECK_CAPABILITY_TEXTURE_AND_SAMPLER_BINDING_ARRAY_NON_UNIFORM_INDEXING UINT64_C(0x100000000)
/* Non-uniform indexing of binding arrays of uniform buffers. */
#define NAGA_CHECK_CAPABILITY_BUFFER_BINDING_ARRAY_NON_UNIFORM_INDEXING UINT64_C(0x200000000)
/* Non-uniform indexing of binding arrays of storage textures. */
#define NAGA_CHECK_CAPABILITY_STORAGE_TEXTURE_BINDING_ARRAY_NON_UNIFORM_INDEXING UINT64_C(0x400000000)
/* Non-uniform indexing of binding arrays of storage buffers. */
#define NAGA_CHECK_CAPABILITY_STORAGE_BUFFER_BINDING_ARRAY_NON_UNIFORM_INDEXING UINT64_C(0x800000000)
/* Cooperative matrices. */
#define NAGA_CHECK_CAPABILITY_COOPERATIVE_MATRIX UINT64_C(0x1000000000)
/* Inputs of fragment shaders with a value for each vertex. */
#define NAGA_CHECK_CAPABILITY_PER_VERTEX UINT64_C(0x2000000000)
/* Ray tracing pipelines and acceleration structures. */
#define NAGA_CHECK_CAPABILITY_RAY_TRACING_PIPELINE UINT64_C(0x4000000000)
/* The index of a draw call, as a built-in value. */
#define NAGA_CHECK_CAPABILITY_DRAW_INDEX UINT64_C(0x8000000000)
/* Binding arrays of acceleration structures. */
#define NAGA_CHECK_CAPABILITY_ACCELERATION_STRUCTURE_BINDING_ARRAY UINT64_C(0x10000000000)
/* Coherent memory. */
#define NAGA_CHECK_CAPABILITY_MEMORY_DECORATION_COHERENT UINT64_C(0x20000000000)
/* Volatile memory. */
#define NAGA_CHECK_CAPABILITY_MEMORY_DECORATION_VOLATILE UINT64_C(0x40000000000)
/* Integers of 16 bits. */
#define NAGA_CHECK_CAPABILITY_SHADER_INT16 UINT64_C(0x80000000000)
/* What a module without the item may use, as in naga: multisampled shading and arrays of cube textures. */
#define NAGA_CHECK_CAPABILITY_DEFAULT UINT64_C(0x9000)
/* All of them: no other bits may be given. */
#define NAGA_CHECK_CAPABILITY_ALL UINT64_C(0xFFFFFFFFFFF)

/* What a type may be used for: naga's TypeFlags. */
/* Local variables, struct members, array elements and function arguments may be of the type. */
#define NAGA_CHECK_TYPE_DATA 0x1u
/* The size is fixed when a pipeline is created (WGSL "Fixed-Footprint Types"). */
#define NAGA_CHECK_TYPE_SIZED 0x2u
/* Values can be copied. */
#define NAGA_CHECK_TYPE_COPY 0x4u
/* Pipeline stages may pass values to one another, as inputs and outputs (WGSL "Input-output Locations"). */
#define NAGA_CHECK_TYPE_IO_SHAREABLE 0x8u
/* The host and the device may share values (WGSL "Host-shareable Types"). */
#define NAGA_CHECK_TYPE_HOST_SHAREABLE 0x10u
/* The size is fixed when a shader module is created: no override decides it (WGSL "Fixed-Footprint Types"). */
#define NAGA_CHECK_TYPE_CREATION_RESOLVED 0x20u
/* Functions may take values as arguments. */
#define NAGA_CHECK_TYPE_ARGUMENT 0x40u
/* Values can be created, loaded, stored, passed and returned (WGSL "Constructible Types"). */
#define NAGA_CHECK_TYPE_CONSTRUCTIBLE 0x80u

/* Stages of a pipeline: naga's ShaderStages. */
/* Vertex shaders. */
#define NAGA_CHECK_SHADER_STAGE_VERTEX 0x1u
/* Fragment shaders. */
#define NAGA_CHECK_SHADER_STAGE_FRAGMENT 0x2u
/* Compute shaders. */
#define NAGA_CHECK_SHADER_STAGE_COMPUTE 0x4u
/* Mesh shaders. */
#define NAGA_CHECK_SHADER_STAGE_MESH 0x8u
/* Task shaders. */
#define NAGA_CHECK_SHADER_STAGE_TASK 0x10u
/* Shaders that generate rays. */
#define NAGA_CHECK_SHADER_STAGE_RAY_GENERATION 0x20u
/* Shaders that accept or ignore a hit of a ray. */
#define NAGA_CHECK_SHADER_STAGE_ANY_HIT 0x40u
/* Shaders for the closest hit of a ray. */
#define NAGA_CHECK_SHADER_STAGE_CLOSEST_HIT 0x80u
/* Shaders for rays that hit nothing. */
#define NAGA_CHECK_SHADER_STAGE_MISS 0x100u
/* Stages that run in workgroups: compute, mesh and task shaders. */
#define NAGA_CHECK_SHADER_STAGE_COMPUTE_LIKE 0x1Cu

#endif
