//! The formats that are measured, and how the crate's pixels are compared with the library's. BC2, BC4 and BC5 stand beside plain readers of
//! the same rules (plain.rs).
use crate::blocks::Half;
use crate::plain;
use yalivucu::typed::{read_opaque, read_strict, Picture, Refusal};

pub type Reader = fn(&[u8], usize, usize, &mut [u32]) -> Result<(), &'static str>;

pub type Pitched = fn(&[u8], usize, usize, usize, &mut [u32]) -> Result<(), &'static str>;

pub struct Format {
    pub name: &'static str,
    pub halves: &'static [Half],
    pub library: Reader,
    /// Its twin with a pitch; a reader of single blocks has none, and that of an opaque-only viewer none here.
    pub pitched: Option<Pitched>,
    pub given: Reader,
    /// The most of the crate's time that it may take.
    pub limit: f64,
}

/// BC1 has the shape of x86-64's vector code; on Arm the crate's own is quick, and less is gained.
const BC1: f64 = if cfg!(target_arch = "x86_64") { 0.70 } else { 0.90 };

pub const FORMATS: [Format; 20] = [
    Format {
        name: "ETC1",
        halves: &[Half::Colour],
        library: yalivucu::decode_etc1,
        pitched: Some(yalivucu::decode_etc1_pitched),
        given: given::decode_etc1,
        limit: 0.33,
    },
    Format {
        name: "ETC1, strict, beside the crate's ETC1",
        halves: &[Half::InRange],
        library: |data, width, height, image| {
            read_strict(data, Picture::new(width, height), image).map_err(Refusal::text)
        },
        pitched: None,
        given: given::decode_etc1,
        limit: 0.33,
    },
    Format {
        name: "RGB",
        halves: &[Half::Colour],
        library: yalivucu::decode_etc2_rgb,
        pitched: Some(yalivucu::decode_etc2_rgb_pitched),
        given: given::decode_etc2_rgb,
        limit: 0.33,
    },
    Format {
        name: "RGBA1",
        halves: &[Half::Punched],
        library: yalivucu::decode_etc2_rgba1,
        pitched: Some(yalivucu::decode_etc2_rgba1_pitched),
        given: given::decode_etc2_rgba1,
        limit: 0.33,
    },
    Format {
        name: "RGBA1, opaque only, beside the crate's RGB",
        halves: &[Half::Opaque],
        library: |data, width, height, image| {
            read_opaque(data, Picture::new(width, height), image).map_err(Refusal::text)
        },
        pitched: None,
        given: given::decode_etc2_rgb,
        limit: 0.33,
    },
    Format {
        name: "RGBA8",
        halves: &[Half::Alpha, Half::Colour],
        library: yalivucu::decode_etc2_rgba8,
        pitched: Some(yalivucu::decode_etc2_rgba8_pitched),
        given: given::decode_etc2_rgba8,
        limit: 0.33,
    },
    Format {
        name: "alpha half",
        halves: &[Half::Alpha],
        library: |data, _, _, image| each_block(yalivucu::decode_etc2_a8_block, data, image),
        pitched: None,
        given: |data, _, _, image| each_block(given::decode_etc2_a8_block, data, image),
        limit: 1.50,
    },
    Format {
        name: "EAC R",
        halves: &[Half::Channel],
        library: yalivucu::decode_eacr,
        pitched: Some(yalivucu::decode_eacr_pitched),
        given: given::decode_eacr,
        limit: 0.33,
    },
    Format {
        name: "EAC R signed",
        halves: &[Half::SignedChannel],
        library: yalivucu::decode_eacr_signed,
        pitched: Some(yalivucu::decode_eacr_signed_pitched),
        given: given::decode_eacr_signed,
        limit: 0.33,
    },
    Format {
        name: "EAC RG",
        halves: &[Half::Channel, Half::Channel],
        library: yalivucu::decode_eacrg,
        pitched: Some(yalivucu::decode_eacrg_pitched),
        given: given::decode_eacrg,
        limit: 0.33,
    },
    Format {
        name: "EAC RG signed",
        halves: &[Half::SignedChannel, Half::SignedChannel],
        library: yalivucu::decode_eacrg_signed,
        pitched: Some(yalivucu::decode_eacrg_signed_pitched),
        given: given::decode_eacrg_signed,
        limit: 0.33,
    },
    Format {
        name: "BC1",
        halves: &[Half::Desktop],
        library: yalivucu::decode_bc1,
        pitched: Some(yalivucu::decode_bc1_pitched),
        given: given::decode_bc1,
        limit: BC1,
    },
    Format {
        name: "BC1a",
        halves: &[Half::Desktop],
        library: yalivucu::decode_bc1a,
        pitched: Some(yalivucu::decode_bc1a_pitched),
        given: given::decode_bc1a,
        limit: BC1,
    },
    Format {
        name: "BC3",
        halves: &[Half::DesktopAlpha, Half::DesktopFour],
        library: yalivucu::decode_bc3,
        pitched: Some(yalivucu::decode_bc3_pitched),
        given: given::decode_bc3,
        limit: 0.75,
    },
    Format {
        name: "BC7",
        halves: &[Half::Bc7, Half::Bc7Rest],
        library: yalivucu::decode_bc7,
        pitched: Some(yalivucu::decode_bc7_pitched),
        given: given::decode_bc7,
        limit: 0.50,
    },
    Format {
        name: "BC2, beside a plain reader",
        halves: &[Half::Wide, Half::DesktopFour],
        library: yalivucu::decode_bc2,
        pitched: Some(yalivucu::decode_bc2_pitched),
        given: plain::decode_bc2,
        limit: 0.60,
    },
    Format {
        name: "BC4, beside a plain reader",
        halves: &[Half::DesktopAlpha],
        library: yalivucu::decode_bc4,
        pitched: Some(yalivucu::decode_bc4_pitched),
        given: plain::decode_bc4,
        limit: 0.60,
    },
    Format {
        name: "BC4 signed, beside a plain reader",
        halves: &[Half::SignedValues],
        library: yalivucu::decode_bc4_signed,
        pitched: Some(yalivucu::decode_bc4_signed_pitched),
        given: plain::decode_bc4_signed,
        limit: 0.60,
    },
    Format {
        name: "BC5, beside a plain reader",
        halves: &[Half::DesktopAlpha, Half::DesktopAlpha],
        library: yalivucu::decode_bc5,
        pitched: Some(yalivucu::decode_bc5_pitched),
        given: plain::decode_bc5,
        limit: 0.60,
    },
    Format {
        name: "BC5 signed, beside a plain reader",
        halves: &[Half::SignedValues, Half::SignedValues],
        library: yalivucu::decode_bc5_signed,
        pitched: Some(yalivucu::decode_bc5_signed_pitched),
        given: plain::decode_bc5_signed,
        limit: 0.60,
    },
];

/// A block reader on one block after the other, each with sixteen elements of its own.
fn each_block(reader: fn(&[u8], &mut [u32]), data: &[u8], image: &mut [u32]) -> Result<(), &'static str> {
    for (block, tile) in data.chunks_exact(8).zip(image.chunks_exact_mut(16)) {
        reader(block, tile);
    }
    Ok(())
}

impl Format {
    /// Whether both write the same pixels, outside the listed differences: the crate keeps the
    /// colour of a transparent RGBA1 pixel, and it reads the EAC index word backwards.
    pub fn same(&self, data: &[u8], width: usize, height: usize) -> bool {
        let mut ours = vec![0; width * height];
        let mut theirs = ours.clone();
        (self.given)(data, width, height, &mut theirs).expect("the crate refused");
        let told: Vec<u8> = match self.halves[0] {
            Half::Channel | Half::SignedChannel => data.chunks(8).flat_map(backwards).collect(),
            _ => data.to_vec(),
        };
        (self.library)(&told, width, height, &mut ours).expect("the library refused");
        if self.halves[0] == Half::Punched {
            for pixel in theirs.iter_mut().filter(|pixel| **pixel >> 24 == 0) {
                *pixel = 0;
            }
        }
        ours == theirs
    }
}

/// The bytes that the Khronos order shows as the crate shows b0 to b7.
fn backwards(b: &[u8]) -> [u8; 8] {
    [b[0], b[1], b[5], b[4], b[3], b[2], b[1], b[0]]
}
