//! What is ours alone, with Rust's own habits: a [`Format`] as a value, a [`Picture`] as a
//! description, and a [`Refusal`] that says why not. Nothing here panics.
//!
//! ```
//! use yalivucu::typed::{read, Format, Picture, Refusal};
//!
//! let data = [0x04, 0, 0, 0x02, 0, 0, 0, 0]; // one block of 8 bytes
//! let mut image = [0; 16];
//! read(Format::Etc1, &data, Picture::new(4, 4), &mut image)?;
//! assert_eq!(image[..4], [0xff020202, 0xff020202, 0xffe90202, 0xffe90202]);
//! # Ok::<(), Refusal>(())
//! ```
pub use crate::baking::{bake_etc1_block, check_etc1_block};
#[cfg(feature = "std")]
pub use crate::bands::{read_in_bands, read_opaque_in_bands, read_strict_in_bands};
pub use crate::census::{census_etc2_rgb, census_etc2_rgba1, KindCounts, RgbCounts, Rgba1Counts};
pub use crate::degrees::{degrees, Legend, Reading};
pub use crate::file::{Container, File, Level, Orientation};
pub use crate::older::{older_etc1, older_rgb, OlderCounts, OlderPixel};
pub use crate::pieces::{Pieces, Taken};
pub use crate::refusal::Refusal;
pub use crate::sheet::{read_sheet, sheet_head, write_sheet, Head};
use crate::sys;
pub use crate::whole::{decode_eacr11, decode_eacr11_signed, decode_eacrg11, decode_eacrg11_signed};

/// The formats that can be read.
#[derive(Clone, Copy, Debug, PartialEq, Eq, Hash)]
#[non_exhaustive]
pub enum Format {
    /// ETC1, in blocks of 8 bytes; sums out of range wrap.
    Etc1,
    /// ETC2 RGB, in blocks of 8 bytes.
    Etc2Rgb,
    /// ETC2 RGB with one bit of alpha, in blocks of 8 bytes.
    Etc2Rgba1,
    /// ETC2 RGB with eight bits of alpha, in blocks of 16 bytes.
    Etc2Rgba8,
    /// EAC R into red, in blocks of 8 bytes.
    EacR,
    /// Signed EAC R into red, in blocks of 8 bytes.
    EacRSigned,
    /// EAC RG into red and green, in blocks of 16 bytes.
    EacRg,
    /// Signed EAC RG into red and green, in blocks of 16 bytes.
    EacRgSigned,
    /// BC1 without alpha, in blocks of 8 bytes; the last of three colours is black.
    Bc1,
    /// BC1 with one bit of alpha, in blocks of 8 bytes; the last of three colours is 0.
    Bc1Alpha,
    /// BC3, in blocks of 16 bytes; always four colours, and eight bits of alpha.
    Bc3,
    /// BC7, in blocks of 16 bytes; a block without a mode is 0.
    Bc7,
    /// BC2, in blocks of 16 bytes; always four colours, and four bits of alpha.
    Bc2,
    /// BC4 into red, in blocks of 8 bytes.
    Bc4,
    /// Signed BC4 into red, in blocks of 8 bytes; a value's byte is 127 more, as in signed EAC.
    Bc4Signed,
    /// BC5 into red and green, in blocks of 16 bytes.
    Bc5,
    /// Signed BC5 into red and green, in blocks of 16 bytes; a value's byte is 127 more, as in signed EAC.
    Bc5Signed,
}

impl Format {
    /// Every format.
    pub const ALL: [Format; 17] = [
        Format::Etc1,
        Format::Etc2Rgb,
        Format::Etc2Rgba1,
        Format::Etc2Rgba8,
        Format::EacR,
        Format::EacRSigned,
        Format::EacRg,
        Format::EacRgSigned,
        Format::Bc1,
        Format::Bc1Alpha,
        Format::Bc3,
        Format::Bc7,
        Format::Bc2,
        Format::Bc4,
        Format::Bc4Signed,
        Format::Bc5,
        Format::Bc5Signed,
    ];

    /// The bytes of a block.
    ///
    /// ```
    /// assert_eq!(yalivucu::typed::Format::EacRg.block_size(), 16);
    /// ```
    pub const fn block_size(self) -> usize {
        match self {
            Format::Etc2Rgba8 | Format::EacRg | Format::EacRgSigned => 16,
            Format::Bc2 | Format::Bc3 | Format::Bc5 | Format::Bc5Signed | Format::Bc7 => 16,
            _ => 8,
        }
    }

    fn picture_reader(self) -> sys::Picture {
        match self {
            Format::Etc1 => sys::yalivucu_decode_etc1_pitched,
            Format::Etc2Rgb => sys::yalivucu_decode_etc2_rgb_pitched,
            Format::Etc2Rgba1 => sys::yalivucu_decode_etc2_rgba1_pitched,
            Format::Etc2Rgba8 => sys::yalivucu_decode_etc2_rgba8_pitched,
            Format::EacR => sys::yalivucu_decode_eacr_pitched,
            Format::EacRSigned => sys::yalivucu_decode_eacr_signed_pitched,
            Format::EacRg => sys::yalivucu_decode_eacrg_pitched,
            Format::EacRgSigned => sys::yalivucu_decode_eacrg_signed_pitched,
            Format::Bc1 => sys::yalivucu_decode_bc1_pitched,
            Format::Bc1Alpha => sys::yalivucu_decode_bc1a_pitched,
            Format::Bc3 => sys::yalivucu_decode_bc3_pitched,
            Format::Bc7 => sys::yalivucu_decode_bc7_pitched,
            Format::Bc2 => sys::yalivucu_decode_bc2_pitched,
            Format::Bc4 => sys::yalivucu_decode_bc4_pitched,
            Format::Bc4Signed => sys::yalivucu_decode_bc4_signed_pitched,
            Format::Bc5 => sys::yalivucu_decode_bc5_pitched,
            Format::Bc5Signed => sys::yalivucu_decode_bc5_signed_pitched,
        }
    }

    pub(crate) fn starter(self) -> sys::Start {
        match self {
            Format::Etc1 => sys::yalivucu_start_etc1,
            Format::Etc2Rgb => sys::yalivucu_start_etc2_rgb,
            Format::Etc2Rgba1 => sys::yalivucu_start_etc2_rgba1,
            Format::Etc2Rgba8 => sys::yalivucu_start_etc2_rgba8,
            Format::EacR => sys::yalivucu_start_eacr,
            Format::EacRSigned => sys::yalivucu_start_eacr_signed,
            Format::EacRg => sys::yalivucu_start_eacrg,
            Format::EacRgSigned => sys::yalivucu_start_eacrg_signed,
            Format::Bc1 => sys::yalivucu_start_bc1,
            Format::Bc1Alpha => sys::yalivucu_start_bc1a,
            Format::Bc3 => sys::yalivucu_start_bc3,
            Format::Bc7 => sys::yalivucu_start_bc7,
            Format::Bc2 => sys::yalivucu_start_bc2,
            Format::Bc4 => sys::yalivucu_start_bc4,
            Format::Bc4Signed => sys::yalivucu_start_bc4_signed,
            Format::Bc5 => sys::yalivucu_start_bc5,
            Format::Bc5Signed => sys::yalivucu_start_bc5_signed,
        }
    }

    fn block_reader(self) -> sys::Block {
        match self {
            Format::Etc1 => sys::yalivucu_decode_etc1_block,
            Format::Etc2Rgb => sys::yalivucu_decode_etc2_rgb_block,
            Format::Etc2Rgba1 => sys::yalivucu_decode_etc2_rgba1_block,
            Format::Etc2Rgba8 => sys::yalivucu_decode_etc2_rgba8_block,
            Format::EacR => sys::yalivucu_decode_eacr_block,
            Format::EacRSigned => sys::yalivucu_decode_eacr_signed_block,
            Format::EacRg => sys::yalivucu_decode_eacrg_block,
            Format::EacRgSigned => sys::yalivucu_decode_eacrg_signed_block,
            Format::Bc1 => sys::yalivucu_decode_bc1_block,
            Format::Bc1Alpha => sys::yalivucu_decode_bc1a_block,
            Format::Bc3 => sys::yalivucu_decode_bc3_block,
            Format::Bc7 => sys::yalivucu_decode_bc7_block,
            Format::Bc2 => sys::yalivucu_decode_bc2_block,
            Format::Bc4 => sys::yalivucu_decode_bc4_block,
            Format::Bc4Signed => sys::yalivucu_decode_bc4_signed_block,
            Format::Bc5 => sys::yalivucu_decode_bc5_block,
            Format::Bc5Signed => sys::yalivucu_decode_bc5_signed_block,
        }
    }
}

/// A picture's description: its size in pixels, and how many elements of the image a row takes.
/// Pixel (x, y) is `image[y * pitch + x]`.
#[derive(Clone, Copy, Debug, PartialEq, Eq, Hash)]
#[non_exhaustive]
pub struct Picture {
    /// The width in pixels.
    pub width: usize,
    /// The height in pixels.
    pub height: usize,
    /// The elements that a row takes: its pixels, and a gap that is never written.
    pub pitch: usize,
}

impl Picture {
    /// A picture of that size, whose rows follow each other.
    pub const fn new(width: usize, height: usize) -> Picture {
        Picture {
            width,
            height,
            pitch: width,
        }
    }

    /// The same picture in an image whose rows take so many elements.
    ///
    /// ```
    /// use yalivucu::typed::{read, Format, Picture, Refusal};
    ///
    /// let mut image = [7; 10];
    /// read(Format::Etc1, &[0; 8], Picture::new(3, 2).with_pitch(5), &mut image)?;
    /// let (a, b) = (0xff020202, 7);
    /// assert_eq!(image, [a, a, a, b, b, a, a, a, b, b]);
    /// # Ok::<(), Refusal>(())
    /// ```
    pub const fn with_pitch(self, pitch: usize) -> Picture {
        Picture { pitch, ..self }
    }

    /// How many bytes the picture's blocks have, unless that is more than can be counted.
    ///
    /// ```
    /// use yalivucu::typed::{Format, Picture};
    /// assert_eq!(Picture::new(5, 5).bytes(Format::Etc1), Some(32));
    /// ```
    pub fn bytes(self, format: Format) -> Option<usize> {
        let across = self.width.div_ceil(4);
        let down = self.height.div_ceil(4);
        across.checked_mul(down)?.checked_mul(format.block_size())
    }

    /// How many elements the image must have, unless that is more than can be counted.
    ///
    /// ```
    /// use yalivucu::typed::Picture;
    /// assert_eq!(Picture::new(5, 5).elements(), Some(25));
    /// assert_eq!(Picture::new(5, 5).with_pitch(8).elements(), Some(37)); // four rows of 8 and one of 5
    /// ```
    pub fn elements(self) -> Option<usize> {
        if self.width == 0 || self.height == 0 {
            return Some(0);
        }
        (self.height - 1).checked_mul(self.pitch)?.checked_add(self.width)
    }
}

/// Reads a picture of any format.
///
/// Refuses with [`Refusal::TooLarge`], [`Refusal::ShortPitch`], [`Refusal::ShortData`] or
/// [`Refusal::ShortImage`], tested in that order, and then `image` is as it was.
///
/// ```
/// use yalivucu::typed::{read, Format, Picture, Refusal};
///
/// let mut image = [7; 16];
/// let refused = read(Format::Etc2Rgba8, &[0; 15], Picture::new(4, 4), &mut image);
/// assert_eq!(refused, Err(Refusal::ShortData));
/// assert_eq!(image, [7; 16]);
/// ```
pub fn read(format: Format, data: &[u8], picture: Picture, image: &mut [u32]) -> Result<(), Refusal> {
    let reader = format.picture_reader();
    // SAFETY: the pointers and lengths are those of two slices that live through the call.
    let number = unsafe {
        reader(
            data.as_ptr(),
            data.len(),
            picture.width,
            picture.height,
            picture.pitch,
            image.as_mut_ptr(),
            image.len(),
        )
    };
    Refusal::answered(number, 0)
}

/// Reads an ETC1 picture that holds no block out of range and has no byte behind its blocks. Any
/// other it refuses: with [`Refusal::LongData`], or with [`Refusal::OutOfRange`] and the number of the
/// first such block. What it accepts, an ETC2 decoder shows alike.
///
/// Refuses with [`Refusal::TooLarge`], [`Refusal::ShortPitch`], [`Refusal::ShortData`],
/// [`Refusal::LongData`], [`Refusal::ShortImage`] or [`Refusal::OutOfRange`], tested in that order, and
/// then `image` is as it was.
///
/// ```
/// use yalivucu::typed::{read_strict, Picture, Refusal};
///
/// let mut image = [7; 16];
/// let refused = read_strict(&[0x04, 0, 0, 0x02, 0, 0, 0, 0], Picture::new(4, 4), &mut image);
/// assert_eq!(refused, Err(Refusal::OutOfRange { block: 0 }));
/// assert_eq!(image, [7; 16]);
/// ```
pub fn read_strict(data: &[u8], picture: Picture, image: &mut [u32]) -> Result<(), Refusal> {
    guarded(sys::yalivucu_decode_etc1_strict_pitched, data, picture, image)
}

/// Reads an ETC2 RGBA1 picture for a viewer that knows ETC2 RGB but nothing transparent. One that has a
/// block whose opaque bit is clear it refuses, with [`Refusal::NotOpaque`] and the number of the first
/// such block. What it accepts, readers of either format show alike.
///
/// Refuses with [`Refusal::TooLarge`], [`Refusal::ShortPitch`], [`Refusal::ShortData`],
/// [`Refusal::ShortImage`] or [`Refusal::NotOpaque`], tested in that order, and then `image` is as it was.
///
/// ```
/// use yalivucu::typed::{read_opaque, Picture, Refusal};
///
/// let mut image = [7; 16];
/// let refused = read_opaque(&[0; 8], Picture::new(4, 4), &mut image);
/// assert_eq!(refused, Err(Refusal::NotOpaque { block: 0 }));
/// assert_eq!(image, [7; 16]);
/// assert_eq!(read_opaque(&[0xf8, 0, 0, 0x02, 0, 0, 0, 0], Picture::new(4, 4), &mut image), Ok(()));
/// assert_eq!(image, [0xffff0202; 16]);
/// ```
pub fn read_opaque(data: &[u8], picture: Picture, image: &mut [u32]) -> Result<(), Refusal> {
    guarded(sys::yalivucu_decode_etc2_rgba1_opaque_pitched, data, picture, image)
}

fn guarded(reader: sys::Guarded, data: &[u8], picture: Picture, image: &mut [u32]) -> Result<(), Refusal> {
    let mut block = 0;
    // SAFETY: the pointers and lengths are those of two slices that live through the call, and
    // `block` is a local of its own.
    let number = unsafe {
        reader(
            data.as_ptr(),
            data.len(),
            picture.width,
            picture.height,
            picture.pitch,
            image.as_mut_ptr(),
            image.len(),
            &mut block,
        )
    };
    Refusal::answered(number, block)
}

/// Checks an ETC1 picture as [`read_strict`] does, without an image: where one is long enough, the two answer
/// the same.
///
/// Refuses with [`Refusal::TooLarge`], [`Refusal::ShortData`], [`Refusal::LongData`] or
/// [`Refusal::OutOfRange`], tested in that order.
///
/// ```
/// use yalivucu::typed::{check_strict, Refusal};
///
/// let red = [0xf8, 0, 0, 0x02, 0, 0, 0, 0];
/// assert_eq!(check_strict(&red, 4, 4), Ok(()));
/// let t = [0x04, 0, 0, 0x02, 0, 0, 0, 0];
/// assert_eq!(check_strict(&[red, t].concat(), 8, 4), Err(Refusal::OutOfRange { block: 1 }));
/// ```
pub fn check_strict(data: &[u8], width: usize, height: usize) -> Result<(), Refusal> {
    checked(sys::yalivucu_check_strict, data, width, height)
}

/// Checks an ETC2 RGBA1 picture as [`read_opaque`] does, without an image: where one is long enough, the two
/// answer the same.
///
/// Refuses with [`Refusal::TooLarge`], [`Refusal::ShortData`] or [`Refusal::NotOpaque`], tested in that order.
///
/// ```
/// use yalivucu::typed::{check_opaque, Refusal};
///
/// let red = [0xf8, 0, 0, 0x02, 0, 0, 0, 0];
/// assert_eq!(check_opaque(&red, 4, 4), Ok(()));
/// assert_eq!(check_opaque(&[red, [0; 8]].concat(), 8, 4), Err(Refusal::NotOpaque { block: 1 }));
/// ```
pub fn check_opaque(data: &[u8], width: usize, height: usize) -> Result<(), Refusal> {
    checked(sys::yalivucu_check_opaque, data, width, height)
}

fn checked(check: sys::Check, data: &[u8], width: usize, height: usize) -> Result<(), Refusal> {
    let mut block = 0;
    // SAFETY: the pointer and the length are those of a slice that lives through the call, and `block` is a
    // local of its own.
    let number = unsafe { check(data.as_ptr(), data.len(), width, height, &mut block) };
    Refusal::answered(number, block)
}

/// Reads one block of any format into the elements 0 to 15 of `out`, row by row.
///
/// Refuses with [`Refusal::ShortData`] or, for fewer than 16 elements, [`Refusal::ShortImage`],
/// tested in that order, and then `out` is as it was.
///
/// ```
/// use yalivucu::typed::{read_block, Format, Refusal};
///
/// let mut out = [0; 16];
/// assert_eq!(read_block(Format::Etc2Rgb, &[0; 7], &mut out), Err(Refusal::ShortData));
/// assert_eq!(read_block(Format::Etc2Rgb, &[0; 8], &mut out), Ok(()));
/// assert_eq!(out, [0xff020202; 16]);
/// ```
pub fn read_block(format: Format, data: &[u8], out: &mut [u32]) -> Result<(), Refusal> {
    block_by(format.block_reader(), data, out)
}

/// Reads an alpha half of 8 bytes into the top bytes of the elements 0 to 15, and keeps the rest
/// of them. Refuses as [`read_block`] does.
///
/// ```
/// use yalivucu::typed::read_alpha;
///
/// let mut out = [0x00123456; 16];
/// assert_eq!(read_alpha(&[0x80, 0x10, 0, 0, 0, 0, 0, 0], &mut out), Ok(()));
/// assert_eq!(out, [0x7d123456; 16]);
/// ```
pub fn read_alpha(data: &[u8], out: &mut [u32]) -> Result<(), Refusal> {
    block_by(sys::yalivucu_decode_etc2_a8_block, data, out)
}

/// Reads an EAC block of 8 bytes and ORs its bytes into channel 0 blue, 1 green, 2 red or 3
/// alpha of the elements 0 to 15. Refuses with [`Refusal::NoChannel`] first, then as
/// [`read_block`] does.
///
/// ```
/// use yalivucu::typed::{read_channel, Refusal};
///
/// let mut out = [0; 16];
/// assert_eq!(read_channel(&[0x80, 0x10, 0, 0, 0, 0, 0, 0], 2, &mut out), Ok(()));
/// assert_eq!(out, [0x007d0000; 16]);
/// assert_eq!(read_channel(&[0; 8], 4, &mut out), Err(Refusal::NoChannel));
/// ```
pub fn read_channel(data: &[u8], channel: usize, out: &mut [u32]) -> Result<(), Refusal> {
    channel_by(sys::yalivucu_decode_eac_block, data, channel, out)
}

/// The same of a signed EAC block.
///
/// ```
/// use yalivucu::typed::read_channel_signed;
///
/// let mut out = [0; 16];
/// assert_eq!(read_channel_signed(&[0, 0x10, 0, 0, 0, 0, 0, 0], 2, &mut out), Ok(()));
/// assert_eq!(out, [0x007c0000; 16]);
/// ```
pub fn read_channel_signed(data: &[u8], channel: usize, out: &mut [u32]) -> Result<(), Refusal> {
    channel_by(sys::yalivucu_decode_eac_signed_block, data, channel, out)
}

/// Reads the alpha half of a BC3 block, 8 bytes, into channel 0 blue, 1 green, 2 red or 3 alpha of
/// the elements 0 to 15, in place of the byte that stood there. Refuses as [`read_channel`] does.
///
/// ```
/// use yalivucu::typed::{replace_channel, Refusal};
///
/// let mut out = [0x11223344; 17];
/// assert_eq!(replace_channel(&[0xff, 0, 0, 0, 0, 0, 0, 0], 2, &mut out), Ok(()));
/// assert_eq!(out[..16], [0x11ff3344; 16]);
/// assert_eq!(out[16], 0x11223344);
/// assert_eq!(replace_channel(&[0; 8], 4, &mut out), Err(Refusal::NoChannel));
/// ```
pub fn replace_channel(data: &[u8], channel: usize, out: &mut [u32]) -> Result<(), Refusal> {
    channel_by(sys::yalivucu_decode_bc3_alpha, data, channel, out)
}

fn block_by(reader: sys::Block, data: &[u8], out: &mut [u32]) -> Result<(), Refusal> {
    // SAFETY: the pointers and lengths are those of two slices that live through the call.
    let number = unsafe { reader(data.as_ptr(), data.len(), out.as_mut_ptr(), out.len()) };
    Refusal::answered(number, 0)
}

fn channel_by(reader: sys::Channel, data: &[u8], channel: usize, out: &mut [u32]) -> Result<(), Refusal> {
    // SAFETY: the pointers and lengths are those of two slices that live through the call.
    let number = unsafe { reader(data.as_ptr(), data.len(), channel, out.as_mut_ptr(), out.len()) };
    Refusal::answered(number, 0)
}
