//! The public readers by their numbers in PROTOCOL.md.

pub const ETC1: u32 = 0;
pub const RGB: u32 = 1;
pub const RGBA1: u32 = 2;
pub const RGBA8: u32 = 3;
pub const EACR: u32 = 4;
pub const EACR_SIGNED: u32 = 5;
pub const EACRG: u32 = 6;
pub const EACRG_SIGNED: u32 = 7;
pub const STRICT: u32 = 24;
/// EAC as whole values of eleven bits, for a program that has those readers.
pub const WIDE_EACR: u32 = 28;
pub const WIDE_EACRG: u32 = 30;
pub const WIDE_EACRG_SIGNED: u32 = 31;
/// RGBA1 for an opaque-only viewer.
pub const OPAQUE: u32 = 25;
pub const BC1: u32 = 8;
pub const BC1A: u32 = 9;
pub const BC3: u32 = 10;
pub const BC7: u32 = 11;
pub const BC2: u32 = 12;
pub const BC4: u32 = 13;
pub const BC4_SIGNED: u32 = 14;
pub const BC5: u32 = 15;
pub const BC5_SIGNED: u32 = 16;

pub const BLOCK_ETC1: u32 = 64;
pub const BLOCK_RGB: u32 = 65;
pub const BLOCK_RGBA1: u32 = 66;
pub const BLOCK_A8: u32 = 88;
pub const BLOCK_RGBA8: u32 = 67;
pub const BLOCK_EAC: u32 = 89;
pub const BLOCK_EAC_SIGNED: u32 = 90;
pub const BLOCK_EACR: u32 = 68;
pub const BLOCK_EACR_SIGNED: u32 = 69;
pub const BLOCK_EACRG: u32 = 70;
pub const BLOCK_EACRG_SIGNED: u32 = 71;
pub const BLOCK_BC1: u32 = 72;
pub const BLOCK_BC1A: u32 = 73;
pub const BLOCK_BC3: u32 = 74;
pub const BLOCK_BC3_ALPHA: u32 = 91;
pub const BLOCK_BC7: u32 = 75;
pub const BLOCK_BC2: u32 = 76;
pub const BLOCK_BC4: u32 = 77;
pub const BLOCK_BC4_SIGNED: u32 = 78;
pub const BLOCK_BC5: u32 = 79;
pub const BLOCK_BC5_SIGNED: u32 = 80;

/// Censuses of blocks; what they lend is room for the counts.
pub const CENSUS_RGB: u32 = 160;
pub const CENSUS_RGBA1: u32 = 161;

/// A picture reader that takes a pitch has its twin's number and so many more.
pub const PITCHED: u32 = 32;

/// The formats: those of document 01 in its order, M-106's and M-108's, and BC2, BC4 and BC5.
pub const FORMATS: [u32; 17] = [
    ETC1,
    RGB,
    RGBA1,
    RGBA8,
    EACR,
    EACR_SIGNED,
    EACRG,
    EACRG_SIGNED,
    BC1,
    BC1A,
    BC3,
    BC7,
    BC2,
    BC4,
    BC4_SIGNED,
    BC5,
    BC5_SIGNED,
];
pub const PICTURES: [u32; 19] = [
    ETC1,
    RGB,
    RGBA1,
    RGBA8,
    EACR,
    EACR_SIGNED,
    EACRG,
    EACRG_SIGNED,
    STRICT,
    OPAQUE,
    BC1,
    BC1A,
    BC3,
    BC7,
    BC2,
    BC4,
    BC4_SIGNED,
    BC5,
    BC5_SIGNED,
];
pub const BLOCKS: [u32; 21] = [
    BLOCK_ETC1,
    BLOCK_RGB,
    BLOCK_RGBA1,
    BLOCK_A8,
    BLOCK_RGBA8,
    BLOCK_EAC,
    BLOCK_EAC_SIGNED,
    BLOCK_EACR,
    BLOCK_EACR_SIGNED,
    BLOCK_EACRG,
    BLOCK_EACRG_SIGNED,
    BLOCK_BC1,
    BLOCK_BC1A,
    BLOCK_BC3,
    BLOCK_BC3_ALPHA,
    BLOCK_BC7,
    BLOCK_BC2,
    BLOCK_BC4,
    BLOCK_BC4_SIGNED,
    BLOCK_BC5,
    BLOCK_BC5_SIGNED,
];
pub const CENSUSES: std::ops::RangeInclusive<u32> = CENSUS_RGB..=CENSUS_RGBA1;

pub fn name(reader: u32) -> &'static str {
    match plain(reader) {
        ETC1 => "etc1",
        RGB => "etc2_rgb",
        RGBA1 => "etc2_rgba1",
        RGBA8 => "etc2_rgba8",
        EACR => "eacr",
        EACR_SIGNED => "eacr_signed",
        EACRG => "eacrg",
        EACRG_SIGNED => "eacrg_signed",
        STRICT => "strict etc1",
        WIDE_EACR..=WIDE_EACRG_SIGNED => "eac of eleven bits",
        OPAQUE => "etc2_rgba1_opaque",
        BLOCK_ETC1 => "etc1_block",
        BLOCK_RGB => "etc2_rgb_block",
        BLOCK_RGBA1 => "etc2_rgba1_block",
        BLOCK_A8 => "etc2_a8_block",
        BLOCK_RGBA8 => "etc2_rgba8_block",
        BLOCK_EAC => "eac_block",
        BLOCK_EAC_SIGNED => "eac_signed_block",
        BLOCK_EACR => "eacr_block",
        BLOCK_EACR_SIGNED => "eacr_signed_block",
        BLOCK_EACRG => "eacrg_block",
        BLOCK_EACRG_SIGNED => "eacrg_signed_block",
        BC1 => "bc1",
        BC1A => "bc1a",
        BC3 => "bc3",
        BLOCK_BC1 => "bc1_block",
        BLOCK_BC1A => "bc1a_block",
        BLOCK_BC3 => "bc3_block",
        BLOCK_BC3_ALPHA => "bc3_alpha",
        BC7 => "bc7",
        BLOCK_BC7 => "bc7_block",
        BC2 => "bc2",
        BC4 => "bc4",
        BC4_SIGNED => "bc4_signed",
        BC5 => "bc5",
        BC5_SIGNED => "bc5_signed",
        BLOCK_BC2 => "bc2_block",
        BLOCK_BC4 => "bc4_block",
        BLOCK_BC4_SIGNED => "bc4_signed_block",
        BLOCK_BC5 => "bc5_block",
        BLOCK_BC5_SIGNED => "bc5_signed_block",
        CENSUS_RGB => "census_etc2_rgb",
        CENSUS_RGBA1 => "census_etc2_rgba1",
        _ => "unknown",
    }
}

pub fn is_block(reader: u32) -> bool {
    BLOCKS.contains(&reader)
}

pub fn is_pitched(reader: u32) -> bool {
    PICTURES.iter().any(|&picture| reader == PITCHED + picture)
}

/// The twin of a reader that takes a pitch, and any other as it is.
pub fn plain(reader: u32) -> u32 {
    if is_pitched(reader) {
        reader - PITCHED
    } else {
        reader
    }
}

pub fn is_census(reader: u32) -> bool {
    CENSUSES.contains(&reader)
}

/// The three readers that name a channel.
pub fn has_channel(reader: u32) -> bool {
    matches!(reader, BLOCK_EAC | BLOCK_EAC_SIGNED | BLOCK_BC3_ALPHA)
}

/// The reader of a format's pictures, of a block reader.
pub fn picture_of(reader: u32) -> u32 {
    let places = [
        BLOCK_ETC1,
        BLOCK_RGB,
        BLOCK_RGBA1,
        BLOCK_RGBA8,
        BLOCK_EACR,
        BLOCK_EACR_SIGNED,
        BLOCK_EACRG,
        BLOCK_EACRG_SIGNED,
        BLOCK_BC1,
        BLOCK_BC1A,
        BLOCK_BC3,
        BLOCK_BC7,
        BLOCK_BC2,
        BLOCK_BC4,
        BLOCK_BC4_SIGNED,
        BLOCK_BC5,
        BLOCK_BC5_SIGNED,
    ];
    places.iter().position(|&other| other == reader).map_or(reader, |at| FORMATS[at])
}

pub fn block_size(reader: u32) -> usize {
    match plain(reader) {
        RGBA8 | EACRG | EACRG_SIGNED | WIDE_EACRG | WIDE_EACRG_SIGNED | BLOCK_RGBA8 | BLOCK_EACRG
        | BLOCK_EACRG_SIGNED | BC3 | BLOCK_BC3 | BC7 | BLOCK_BC7 | BC2 | BLOCK_BC2 | BC5 | BLOCK_BC5 | BC5_SIGNED
        | BLOCK_BC5_SIGNED => 16,
        _ => 8,
    }
}

/// Elements of the image that a call needs: one a pixel, or one a count.
pub fn room(reader: u32, width: u32, height: u32) -> usize {
    match reader {
        CENSUS_RGB => 5,
        CENSUS_RGBA1 => 8,
        _ => width as usize * height as usize,
    }
}

/// Elements of the image that a pixel takes.
pub fn elements(reader: u32) -> usize {
    if reader == WIDE_EACRG || reader == WIDE_EACRG_SIGNED {
        2
    } else {
        1
    }
}

/// How the eight bytes from a multiple of eight on are read.
#[derive(Clone, Copy, PartialEq)]
pub enum Half {
    Etc1,
    Rgb,
    Rgba1,
    Alpha,
    Eac,
    /// Two colours of 16 bits, and two bits a pixel.
    Desktop,
    /// Two alphas, and three bits a pixel.
    DesktopAlpha,
    /// Four bits a pixel.
    Nibbles,
    /// A half of BC4 or BC5: as the alphas, of bytes or of signed ones.
    Rgtc,
    /// The first half of a BC7 block, with its mode and partition; and the second.
    Bc7,
    Bc7Rest,
}

pub fn half(reader: u32, second: bool) -> Half {
    match reader {
        ETC1 | STRICT | BLOCK_ETC1 => Half::Etc1,
        RGB | BLOCK_RGB | CENSUS_RGB => Half::Rgb,
        RGBA1 | OPAQUE | BLOCK_RGBA1 | CENSUS_RGBA1 => Half::Rgba1,
        RGBA8 | BLOCK_RGBA8 if second => Half::Rgb,
        RGBA8 | BLOCK_RGBA8 | BLOCK_A8 => Half::Alpha,
        BC1 | BC1A | BLOCK_BC1 | BLOCK_BC1A => Half::Desktop,
        BC3 | BLOCK_BC3 if second => Half::Desktop,
        BC3 | BLOCK_BC3 | BLOCK_BC3_ALPHA => Half::DesktopAlpha,
        BC2 | BLOCK_BC2 if second => Half::Desktop,
        BC2 | BLOCK_BC2 => Half::Nibbles,
        BC4..=BC5_SIGNED | BLOCK_BC4..=BLOCK_BC5_SIGNED => Half::Rgtc,
        BC7 | BLOCK_BC7 if second => Half::Bc7Rest,
        BC7 | BLOCK_BC7 => Half::Bc7,
        _ => Half::Eac,
    }
}

/// The readers of pictures that read T and H blocks as such.
pub fn has_modes(reader: u32) -> bool {
    matches!(reader, RGB | RGBA1 | RGBA8 | OPAQUE)
}

/// The readers that refuse a picture for one of its blocks.
pub fn is_guarded(reader: u32) -> bool {
    matches!(plain(reader), STRICT | OPAQUE)
}

pub fn is_signed(reader: u32) -> bool {
    matches!(
        plain(reader),
        EACR_SIGNED
            | EACRG_SIGNED
            | BLOCK_EAC_SIGNED
            | BLOCK_EACR_SIGNED
            | BLOCK_EACRG_SIGNED
            | BC4_SIGNED
            | BC5_SIGNED
            | BLOCK_BC4_SIGNED
            | BLOCK_BC5_SIGNED
    )
}

pub fn is_eac(reader: u32) -> bool {
    half(reader, false) == Half::Eac
}
