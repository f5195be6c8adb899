//! ETC1, ETC2, EAC, BC1 to BC5 and BC7 textures, read by code that is proved to follow the public rules: a
//! drop-in for those parts of `texture2ddecoder`, with its function names and their exact types.
//!
//! A viewer moves over by one line of `Cargo.toml`, and its source does not change:
//!
//! ```toml
//! texture2ddecoder = { package = "yalivucu", path = "yalivucu/bindings/rust" }
//! ```
//!
//! A picture reader reads the picture, or refuses with a text and changes nothing: there is no
//! third outcome. The texts are the crate's own two, and two more: where a side or the pitch is above 65,536, and where the pitch is below the width. A block reader
//! of the crate returns nothing, so what it refuses it can only panic at, as the crate does: here
//! with a sentence, and before anything is written. [`typed`] has the same readers with a
//! [`Refusal`](typed::Refusal) in place of text and panic, and what is ours alone.
//!
//! A pixel is `alpha << 24 | red << 16 | green << 8 | blue`, and pixel (x, y) is
//! `image[y * width + x]`. For images whose rows have a gap each picture reader has a twin that
//! takes a pitch: there it is `image[y * pitch + x]`. Bytes beyond the last block are not read;
//! elements in the gaps and beyond the picture keep their value. Where the pixels differ from the crate's on purpose, docs/DIFFERENCES.md of
//! the repository says on which formats and bytes.
//!
//! Without its feature `std` the package needs no operating system, and has everything but the readers on
//! several processors.
//!
//! What is proved is the code in the archive, up to its functions of C names. The few lines
//! here that call them are not proved. On x86-64 the archive is what `rt lib` made; on
//! any other machine the proved module was compiled natively by the kit's own clang, a step
//! that `rt` does not do itself (`bindings/archive`).
#![no_std]
#![warn(missing_docs)]

#[cfg(feature = "std")]
extern crate std;

mod baking;
#[cfg(feature = "std")]
mod bands;
mod census;
mod degrees;
mod file;
mod older;
mod pieces;
mod refusal;
mod sheet;
mod sys;
pub mod typed;
mod whole;

use typed::{Format, Picture, Refusal};

macro_rules! pictures {
    ($($(#[$doc:meta])* $name:ident, $pitched:ident = $format:ident;)*) => {$(
        $(#[$doc])*
        ///
        /// Refuses where a side is above 65,536, where there are too few bytes, or where `image`
        /// has too few elements, tested in that order, and then `image` is as it was.
        ///
        /// ```
        #[doc = concat!("use yalivucu::", stringify!($name), ";")]
        ///
        /// let mut image = [7; 16];
        #[doc = concat!("let refused = ", stringify!($name), "(&[0; 7], 4, 4, &mut image);")]
        /// assert_eq!(refused, Err("Not enough data to decode image!"));
        /// assert_eq!(image, [7; 16]);
        #[doc = concat!(stringify!($name), "(&[0; 16], 4, 4, &mut image)?;")]
        /// assert!(image.iter().all(|pixel| *pixel == image[0] && *pixel != 7));
        /// # Ok::<(), &'static str>(())
        /// ```
        pub fn $name(data: &[u8], width: usize, height: usize, image: &mut [u32]) -> Result<(), &'static str> {
            typed::read(Format::$format, data, Picture::new(width, height), image).map_err(Refusal::text)
        }

        $(#[$doc])*
        ///
        /// The same with a pitch: pixel (x, y) is `image[y * pitch + x]`, and elements in the gaps keep
        /// their value. A pitch above 65,536 is refused as a side is, and after that one below the width.
        ///
        /// ```
        #[doc = concat!("use yalivucu::", stringify!($pitched), ";")]
        ///
        /// let mut image = [7; 10];
        #[doc = concat!("let refused = ", stringify!($pitched), "(&[0; 16], 3, 2, 2, &mut image);")]
        /// assert_eq!(refused, Err("The pitch is below the width!"));
        #[doc = concat!(stringify!($pitched), "(&[0; 16], 3, 2, 5, &mut image)?;")]
        /// assert!(image.iter().enumerate().all(|(k, pixel)| (k % 5 < 3) == (*pixel != 7)));
        /// # Ok::<(), &'static str>(())
        /// ```
        pub fn $pitched(
            data: &[u8],
            width: usize,
            height: usize,
            pitch: usize,
            image: &mut [u32],
        ) -> Result<(), &'static str> {
            let picture = Picture::new(width, height).with_pitch(pitch);
            typed::read(Format::$format, data, picture, image).map_err(Refusal::text)
        }
    )*};
}

macro_rules! blocks {
    ($($(#[$doc:meta])* $name:ident = $called:expr;)*) => {$(
        $(#[$doc])*
        ///
        /// # Panics
        ///
        /// Where `data` has fewer bytes than the block, or `outbuf` fewer than 16 elements;
        /// nothing is written then. [`typed`] has readers that refuse instead.
        ///
        /// ```
        #[doc = concat!("use yalivucu::", stringify!($name), ";")]
        ///
        /// let mut pixels = [0x00070707; 17];
        #[doc = concat!(stringify!($name), "(&[0; 16], &mut pixels);")]
        /// assert!(pixels[..16].iter().all(|pixel| *pixel == pixels[0]));
        /// assert_eq!(pixels[16], 0x00070707);
        /// ```
        pub fn $name(data: &[u8], outbuf: &mut [u32]) {
            shown($called(data, outbuf));
        }
    )*};
}

macro_rules! channels {
    ($($(#[$doc:meta])* $name:ident = $called:path;)*) => {$(
        $(#[$doc])*
        ///
        /// # Panics
        ///
        /// Where `color` is above 3, `data` has fewer than 8 bytes, or `outbuf` fewer than 16
        /// elements; nothing is written then. [`typed`] has readers that refuse instead.
        ///
        /// ```
        #[doc = concat!("use yalivucu::", stringify!($name), ";")]
        ///
        /// let mut pixels = [0x11000000; 16];
        #[doc = concat!(stringify!($name), "(&[0x40, 0, 0, 0, 0, 0, 0, 0], 2, &mut pixels);")]
        /// assert!(pixels.iter().all(|pixel| *pixel == pixels[0] && pixel >> 24 == 0x11));
        /// assert!(pixels[0] & 0x00ff_0000 != 0);
        /// ```
        pub fn $name(data: &[u8], color: usize, outbuf: &mut [u32]) {
            shown($called(data, color, outbuf));
        }
    )*};
}

/// What a block reader of the crate's type does with a refusal: it has no answer to give.
#[track_caller]
fn shown(answer: Result<(), Refusal>) {
    if let Err(refusal) = answer {
        panic!("{refusal}");
    }
}

/// The block reader of a format, as the macro above calls it.
fn of(format: Format) -> impl Fn(&[u8], &mut [u32]) -> Result<(), Refusal> {
    move |data, outbuf| typed::read_block(format, data, outbuf)
}

pictures! {
    /// Reads an ETC1 picture, in blocks of 8 bytes.
    decode_etc1, decode_etc1_pitched = Etc1;
    /// Reads an ETC2 RGB picture, in blocks of 8 bytes.
    decode_etc2_rgb, decode_etc2_rgb_pitched = Etc2Rgb;
    /// Reads an ETC2 RGBA1 picture, in blocks of 8 bytes.
    decode_etc2_rgba1, decode_etc2_rgba1_pitched = Etc2Rgba1;
    /// Reads an ETC2 RGBA8 picture, in blocks of 16 bytes.
    decode_etc2_rgba8, decode_etc2_rgba8_pitched = Etc2Rgba8;
    /// Reads an EAC R picture, in blocks of 8 bytes.
    decode_eacr, decode_eacr_pitched = EacR;
    /// Reads a signed EAC R picture, in blocks of 8 bytes.
    decode_eacr_signed, decode_eacr_signed_pitched = EacRSigned;
    /// Reads an EAC RG picture, in blocks of 16 bytes.
    decode_eacrg, decode_eacrg_pitched = EacRg;
    /// Reads a signed EAC RG picture, in blocks of 16 bytes.
    decode_eacrg_signed, decode_eacrg_signed_pitched = EacRgSigned;
    /// Reads a BC1 picture without alpha, in blocks of 8 bytes.
    decode_bc1, decode_bc1_pitched = Bc1;
    /// Reads a BC1 picture with one bit of alpha, in blocks of 8 bytes.
    decode_bc1a, decode_bc1a_pitched = Bc1Alpha;
    /// Reads a BC3 picture, in blocks of 16 bytes.
    decode_bc3, decode_bc3_pitched = Bc3;
    /// Reads a BC7 picture, in blocks of 16 bytes.
    decode_bc7, decode_bc7_pitched = Bc7;
    /// Reads a BC2 picture, in blocks of 16 bytes.
    decode_bc2, decode_bc2_pitched = Bc2;
    /// Reads a BC4 picture, in blocks of 8 bytes.
    decode_bc4, decode_bc4_pitched = Bc4;
    /// Reads a signed BC4 picture, in blocks of 8 bytes.
    decode_bc4_signed, decode_bc4_signed_pitched = Bc4Signed;
    /// Reads a BC5 picture, in blocks of 16 bytes.
    decode_bc5, decode_bc5_pitched = Bc5;
    /// Reads a signed BC5 picture, in blocks of 16 bytes.
    decode_bc5_signed, decode_bc5_signed_pitched = Bc5Signed;
}

blocks! {
    /// Reads an ETC1 block of 8 bytes into the elements 0 to 15, row by row.
    decode_etc1_block = of(Format::Etc1);
    /// Reads an ETC2 RGB block of 8 bytes into the elements 0 to 15, row by row.
    decode_etc2_rgb_block = of(Format::Etc2Rgb);
    /// Reads an ETC2 RGBA1 block of 8 bytes into the elements 0 to 15, row by row.
    decode_etc2_rgba1_block = of(Format::Etc2Rgba1);
    /// Reads an ETC2 RGBA8 block of 16 bytes into the elements 0 to 15, row by row.
    decode_etc2_rgba8_block = of(Format::Etc2Rgba8);
    /// Reads an EAC R block of 8 bytes into the elements 0 to 15, row by row.
    decode_eacr_block = of(Format::EacR);
    /// Reads a signed EAC R block of 8 bytes into the elements 0 to 15, row by row.
    decode_eacr_signed_block = of(Format::EacRSigned);
    /// Reads an EAC RG block of 16 bytes into the elements 0 to 15, row by row.
    decode_eacrg_block = of(Format::EacRg);
    /// Reads a signed EAC RG block of 16 bytes into the elements 0 to 15, row by row.
    decode_eacrg_signed_block = of(Format::EacRgSigned);
    /// Reads a BC1 block of 8 bytes without alpha into the elements 0 to 15, row by row.
    decode_bc1_block = of(Format::Bc1);
    /// Reads a BC1 block of 8 bytes with one bit of alpha into the elements 0 to 15, row by row.
    decode_bc1a_block = of(Format::Bc1Alpha);
    /// Reads a BC3 block of 16 bytes into the elements 0 to 15, row by row.
    decode_bc3_block = of(Format::Bc3);
    /// Reads a BC7 block of 16 bytes into the elements 0 to 15, row by row.
    decode_bc7_block = of(Format::Bc7);
    /// Reads a BC2 block of 16 bytes into the elements 0 to 15, row by row.
    decode_bc2_block = of(Format::Bc2);
    /// Reads a BC4 block of 8 bytes into the elements 0 to 15, row by row.
    decode_bc4_block = of(Format::Bc4);
    /// Reads a signed BC4 block of 8 bytes into the elements 0 to 15, row by row.
    decode_bc4_signed_block = of(Format::Bc4Signed);
    /// Reads a BC5 block of 16 bytes into the elements 0 to 15, row by row.
    decode_bc5_block = of(Format::Bc5);
    /// Reads a signed BC5 block of 16 bytes into the elements 0 to 15, row by row.
    decode_bc5_signed_block = of(Format::Bc5Signed);
    /// Reads an alpha half of 8 bytes into the top bytes of the elements 0 to 15, and keeps
    /// the rest of them.
    decode_etc2_a8_block = typed::read_alpha;
}

channels! {
    /// Reads an EAC block of 8 bytes and ORs its bytes into channel 0 blue, 1 green, 2 red or
    /// 3 alpha of the elements 0 to 15.
    decode_eac_block = typed::read_channel;
    /// The same of a signed EAC block.
    decode_eac_signed_block = typed::read_channel_signed;
}

/// Reads the alpha half of a BC3 block, 8 bytes, into channel 0 blue, 1 green, 2 red or 3 alpha of the
/// elements 0 to 15, in place of the byte that stood there. The crate has this function with this type
/// in a module of its own; it runs over all of `outbuf`, and this one stops after element 15.
///
/// # Panics
///
/// Where `channel` is above 3, `data` has fewer than 8 bytes, or `outbuf` fewer than 16 elements;
/// nothing is written then. [`typed::replace_channel`] refuses instead.
///
/// ```
/// let mut pixels = [0x00112233; 17];
/// yalivucu::decode_bc3_alpha(&[0x80, 0, 0, 0, 0, 0, 0, 0], &mut pixels, 3);
/// assert_eq!(pixels[..16], [0x80112233; 16]);
/// assert_eq!(pixels[16], 0x00112233);
/// ```
pub fn decode_bc3_alpha(data: &[u8], outbuf: &mut [u32], channel: usize) {
    shown(typed::replace_channel(data, channel, outbuf));
}
