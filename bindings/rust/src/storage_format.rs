//! The formats of storage images, as in naga.

use crate::operands::words_of_values;
use crate::sys;

/// The format of the texels of a storage image (WGSL, "Texel Formats"), with its name in the WGSL that naga reads.
#[derive(Clone, Copy, Debug, PartialEq, Eq, Hash)]
#[non_exhaustive]
#[repr(u32)]
pub enum StorageFormat {
    /// `r8unorm`.
    R8Unorm = sys::NAGA_CHECK_STORAGE_FORMAT_R8_UNORM,
    /// `r8snorm`.
    R8Snorm = sys::NAGA_CHECK_STORAGE_FORMAT_R8_SNORM,
    /// `r8uint`.
    R8Uint = sys::NAGA_CHECK_STORAGE_FORMAT_R8_UINT,
    /// `r8sint`.
    R8Sint = sys::NAGA_CHECK_STORAGE_FORMAT_R8_SINT,
    /// `r16uint`.
    R16Uint = sys::NAGA_CHECK_STORAGE_FORMAT_R16_UINT,
    /// `r16sint`.
    R16Sint = sys::NAGA_CHECK_STORAGE_FORMAT_R16_SINT,
    /// `r16float`.
    R16Float = sys::NAGA_CHECK_STORAGE_FORMAT_R16_FLOAT,
    /// `rg8unorm`.
    Rg8Unorm = sys::NAGA_CHECK_STORAGE_FORMAT_RG8_UNORM,
    /// `rg8snorm`.
    Rg8Snorm = sys::NAGA_CHECK_STORAGE_FORMAT_RG8_SNORM,
    /// `rg8uint`.
    Rg8Uint = sys::NAGA_CHECK_STORAGE_FORMAT_RG8_UINT,
    /// `rg8sint`.
    Rg8Sint = sys::NAGA_CHECK_STORAGE_FORMAT_RG8_SINT,
    /// `r32uint`.
    R32Uint = sys::NAGA_CHECK_STORAGE_FORMAT_R32_UINT,
    /// `r32sint`.
    R32Sint = sys::NAGA_CHECK_STORAGE_FORMAT_R32_SINT,
    /// `r32float`.
    R32Float = sys::NAGA_CHECK_STORAGE_FORMAT_R32_FLOAT,
    /// `rg16uint`.
    Rg16Uint = sys::NAGA_CHECK_STORAGE_FORMAT_RG16_UINT,
    /// `rg16sint`.
    Rg16Sint = sys::NAGA_CHECK_STORAGE_FORMAT_RG16_SINT,
    /// `rg16float`.
    Rg16Float = sys::NAGA_CHECK_STORAGE_FORMAT_RG16_FLOAT,
    /// `rgba8unorm`.
    Rgba8Unorm = sys::NAGA_CHECK_STORAGE_FORMAT_RGBA8_UNORM,
    /// `rgba8snorm`.
    Rgba8Snorm = sys::NAGA_CHECK_STORAGE_FORMAT_RGBA8_SNORM,
    /// `rgba8uint`.
    Rgba8Uint = sys::NAGA_CHECK_STORAGE_FORMAT_RGBA8_UINT,
    /// `rgba8sint`.
    Rgba8Sint = sys::NAGA_CHECK_STORAGE_FORMAT_RGBA8_SINT,
    /// `bgra8unorm`.
    Bgra8Unorm = sys::NAGA_CHECK_STORAGE_FORMAT_BGRA8_UNORM,
    /// `rgb10a2uint`.
    Rgb10a2Uint = sys::NAGA_CHECK_STORAGE_FORMAT_RGB10A2_UINT,
    /// `rgb10a2unorm`.
    Rgb10a2Unorm = sys::NAGA_CHECK_STORAGE_FORMAT_RGB10A2_UNORM,
    /// `rg11b10ufloat`.
    Rg11b10Ufloat = sys::NAGA_CHECK_STORAGE_FORMAT_RG11B10_UFLOAT,
    /// `r64uint`.
    R64Uint = sys::NAGA_CHECK_STORAGE_FORMAT_R64_UINT,
    /// `rg32uint`.
    Rg32Uint = sys::NAGA_CHECK_STORAGE_FORMAT_RG32_UINT,
    /// `rg32sint`.
    Rg32Sint = sys::NAGA_CHECK_STORAGE_FORMAT_RG32_SINT,
    /// `rg32float`.
    Rg32Float = sys::NAGA_CHECK_STORAGE_FORMAT_RG32_FLOAT,
    /// `rgba16uint`.
    Rgba16Uint = sys::NAGA_CHECK_STORAGE_FORMAT_RGBA16_UINT,
    /// `rgba16sint`.
    Rgba16Sint = sys::NAGA_CHECK_STORAGE_FORMAT_RGBA16_SINT,
    /// `rgba16float`.
    Rgba16Float = sys::NAGA_CHECK_STORAGE_FORMAT_RGBA16_FLOAT,
    /// `rgba32uint`.
    Rgba32Uint = sys::NAGA_CHECK_STORAGE_FORMAT_RGBA32_UINT,
    /// `rgba32sint`.
    Rgba32Sint = sys::NAGA_CHECK_STORAGE_FORMAT_RGBA32_SINT,
    /// `rgba32float`.
    Rgba32Float = sys::NAGA_CHECK_STORAGE_FORMAT_RGBA32_FLOAT,
    /// `r16unorm`.
    R16Unorm = sys::NAGA_CHECK_STORAGE_FORMAT_R16_UNORM,
    /// `r16snorm`.
    R16Snorm = sys::NAGA_CHECK_STORAGE_FORMAT_R16_SNORM,
    /// `rg16unorm`.
    Rg16Unorm = sys::NAGA_CHECK_STORAGE_FORMAT_RG16_UNORM,
    /// `rg16snorm`.
    Rg16Snorm = sys::NAGA_CHECK_STORAGE_FORMAT_RG16_SNORM,
    /// `rgba16unorm`.
    Rgba16Unorm = sys::NAGA_CHECK_STORAGE_FORMAT_RGBA16_UNORM,
    /// `rgba16snorm`.
    Rgba16Snorm = sys::NAGA_CHECK_STORAGE_FORMAT_RGBA16_SNORM,
}

words_of_values!(StorageFormat);
