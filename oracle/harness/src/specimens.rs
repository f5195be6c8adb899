//! Document 01's specimens, with the values that stand there: S1 to S18, the last as M-104 amends it.

use crate::protocol::{Answer, Case};
use crate::readers::*;

/// What stood in every element.
const OLD: u32 = 0x1111_1111;

pub struct Specimen {
    pub case: Case,
    pub due: Answer,
}

impl Specimen {
    /// Whether a decoder of pictures that has no refusals can be asked.
    pub fn shows(&self) -> bool {
        self.case.reader < STRICT && self.due.number == 0 && self.case.width * self.case.height > 0
    }

    /// The same with an image of the exact length.
    pub fn exact(mut self) -> (Case, Answer) {
        let area = (self.case.width * self.case.height) as usize;
        self.case.image.truncate(area);
        self.due.image.truncate(area);
        (self.case, self.due)
    }
}

// The image lent is as long as the one that is due.
fn specimen(reader: u32, size: (u32, u32), data: &[u8], number: u32, image: Vec<u32>) -> Specimen {
    let old = vec![OLD; image.len()];
    let (width, height) = size;
    let case = Case { reader, channel: 0, width, height, data: data.to_vec(), image: old };
    Specimen { case, due: Answer { number, block: 0, image } }
}

// A single block as a picture of 4 by 4, or as a block.
fn block(reader: u32, start: &[u8], image: Vec<u32>) -> Specimen {
    specimen(reader, (4, 4), &padded(start), 0, image)
}

fn refused(reader: u32, size: (u32, u32), data: &[u8], number: u32, elements: usize) -> Specimen {
    specimen(reader, size, data, number, vec![OLD; elements])
}

fn padded(start: &[u8]) -> Vec<u8> {
    let mut bytes = start.to_vec();
    bytes.resize(8, 0);
    bytes
}

fn all(pixel: u32) -> Vec<u32> {
    vec![pixel; 16]
}

fn by_column(pixels: [u32; 4]) -> Vec<u32> {
    pixels.repeat(4)
}

fn by_row(pixels: [u32; 4]) -> Vec<u32> {
    pixels.iter().flat_map(|&pixel| [pixel; 4]).collect()
}

pub fn specimens() -> Vec<Specimen> {
    let mut list = colours();
    list.extend(strict());
    list.extend(channels());
    list.extend(places());
    list
}

const S2: [u8; 8] = [4, 0, 0, 2, 0, 0, 0, 0];

fn colours() -> Vec<Specimen> {
    vec![
        block(ETC1, &[0], all(0xff02_0202)),
        block(RGB, &[0], all(0xff02_0202)),
        block(RGBA1, &[0], all(0xff00_0000)),
        block(ETC1, &S2, by_column([0xff02_0202, 0xff02_0202, 0xffe9_0202, 0xffe9_0202])),
        block(RGB, &S2, all(0xff00_0000)),
        block(RGB, &[0, 4, 0, 2], all(0xff06_0606)),
        block(RGB, &[0, 0, 4, 2, 0, 0, 0, 0x3f], by_row([0xff00_0000, 0xff00_0040, 0xff00_0080, 0xff00_00bf])),
        block(RGBA1, &[0x80, 0, 0, 0, 0xff, 0xff, 0, 0], all(0)),
    ]
}

// S6 to S9 name only the verdict; the pixels of the accepted ones are the rule's for
// their first base, which both halves share.
fn strict() -> Vec<Specimen> {
    vec![
        refused(STRICT, (4, 4), &S2, 4, 16),
        block(STRICT, &[0xf8, 0, 0, 2], all(0xffff_0202)),
        refused(STRICT, (4, 4), &padded(&[0xf9, 0, 0, 2]), 4, 16),
        block(STRICT, &[0x24, 0, 0, 2], by_column([0xff23_0202, 0xff23_0202, 0xff02_0202, 0xff02_0202])),
        refused(STRICT, (4, 4), &padded(&[0x1c, 0, 0, 2]), 4, 16),
    ]
}

/// A base of 80 hex with index 6 everywhere: 02's specimen of the lowest signed base.
pub const LOWEST: [u8; 8] = [0x80, 0x10, 0xdb, 0x6d, 0xb6, 0xdb, 0x6d, 0xb6];

fn channels() -> Vec<Specimen> {
    vec![
        block(BLOCK_A8, &[0x80, 0x10], all(0x7d11_1111)),
        block(BLOCK_A8, &[0x80, 0x00], all(0x8011_1111)),
        block(BLOCK_A8, &[0x02, 0x10], all(0x0011_1111)),
        block(EACR, &[0x80, 0x10], all(0xff7d_0000)),
        block(EACR, &[0x80, 0x00], all(0xff80_0000)),
        block(EACR_SIGNED, &[0x00, 0x10], all(0xff7c_0000)),
        block(EACR_SIGNED, &LOWEST, all(0xff08_0000)),
        block(EACR_SIGNED, &[0x81, 0x10, 0xdb, 0x6d, 0xb6, 0xdb, 0x6d, 0xb6], all(0xff08_0000)),
        block(EACR, &LOWEST, all(0xff88_0000)),
    ]
}

fn places() -> Vec<Specimen> {
    let two = [S2, [0; 8]].concat();
    let row = vec![0xff02_0202, 0xff02_0202, 0xffe9_0202, 0xffe9_0202, 0xff02_0202, OLD];
    // Only block 3 has a red of its own: it shows its first pixel, as element 24.
    let four = [[0; 8], [0; 8], [0; 8], [0x80, 0, 0, 2, 0, 0, 0, 0]].concat();
    let mut five = vec![0xff02_0202; 25];
    five[24] = 0xff86_0202;
    vec![
        specimen(ETC1, (5, 1), &two, 0, row),
        refused(STRICT, (5, 1), &two, 4, 6),
        specimen(ETC1, (5, 5), &four, 0, five),
        refused(ETC1, (5, 5), &four[..31], 2, 25),
        refused(ETC1, (5, 5), &four, 3, 24),
        refused(ETC1, (5, 5), &four[..31], 2, 24),
        refused(ETC1, (16_384, 0), &[], 0, 0),
        refused(ETC1, (65_537, 0), &[], 1, 0),
    ]
}

/// What the block readers are shown besides, over seventeen elements: 01's specimens as blocks, one byte into each channel, black and
/// white with every index, and BC7 in every mode.
pub fn block_cases() -> Vec<Case> {
    let mut list = Vec::new();
    let mut add = |reader, channel, data: &[u8]| {
        list.push(Case { reader, channel, width: 0, height: 0, data: data.to_vec(), image: vec![OLD; 17] });
    };
    for (reader, blocks) in BLOCK_SPECIMENS {
        for block in blocks {
            add(reader, 0, &[*block, [0; 8]].concat());
        }
    }
    for (reader, first, second) in PAIRS {
        add(reader, 0, &[first.to_be_bytes(), second.to_be_bytes()].concat());
    }
    for reader in [BLOCK_EAC, BLOCK_EAC_SIGNED, BLOCK_BC3_ALPHA] {
        for channel in 0..=4 {
            add(reader, channel, &0x8010_0005_3977_0affu64.to_be_bytes());
        }
    }
    bc7_blocks().iter().for_each(|block| add(BLOCK_BC7, 0, block));
    list
}

const BLOCK_SPECIMENS: [(u32, &[[u8; 8]]); 8] = [
    (BLOCK_ETC1, &[[0; 8], S2, S6, S7, S8, S9]),
    (BLOCK_RGB, &[[0; 8], S2, [0, 4, 0, 2, 0, 0, 0, 0], [0, 0, 4, 2, 0, 0, 0, 0x3f]]),
    (BLOCK_RGBA1, &[[0; 8], [0x80, 0, 0, 0, 0xff, 0xff, 0, 0]]),
    (BLOCK_A8, &[[0x80, 0x10, 0, 0, 0, 0, 0, 0], [0x80, 0, 0, 0, 0, 0, 0, 0], [2, 0x10, 0, 0, 0, 0, 0, 0]]),
    (BLOCK_EACR, &[[0x80, 0x10, 0, 0, 0, 0, 0, 0], [0x80, 0, 0, 0, 0, 0, 0, 0]]),
    (BLOCK_EACR_SIGNED, &[[0, 0x10, 0, 0, 0, 0, 0, 0]]),
    (BLOCK_BC1, &[[0, 0, 0xff, 0xff, 0xe4, 0xe4, 0xe4, 0xe4], [0xff, 0xff, 0, 0, 0xe4, 0xe4, 0xe4, 0xe4]]),
    (BLOCK_BC1A, &[[0, 0, 0xff, 0xff, 0xe4, 0xe4, 0xe4, 0xe4], [0xff, 0xff, 0xff, 0xff, 0xe4, 0xe4, 0xe4, 0xe4]]),
];

const S6: [u8; 8] = [0xf8, 0, 0, 2, 0, 0, 0, 0];
const S7: [u8; 8] = [0xf9, 0, 0, 2, 0, 0, 0, 0];
const S8: [u8; 8] = [0x24, 0, 0, 2, 0, 0, 0, 0];
const S9: [u8; 8] = [0x1c, 0, 0, 2, 0, 0, 0, 0];

/// Blocks of sixteen bytes made of two specimens, and BC3 with fifths and with sevenths.
const PAIRS: [(u32, u64, u64); 5] = [
    (BLOCK_RGBA8, 0x8010_0000_0000_0000, 0x0400_0002_0000_0000),
    (BLOCK_EACRG, 0x8010_0000_0000_0000, 0x8000_0000_0000_0000),
    (BLOCK_EACRG_SIGNED, 0x0010_0000_0000_0000, 0x0010_0000_0000_0000),
    (BLOCK_BC3, 0x10f3_88c6_fa53_8821, 0x0000_ffff_e4e4_e4e4),
    (BLOCK_BC3, 0xf310_88c6_fa53_8821, 0xffff_0000_e4e4_e4e4),
];

/// A block of each mode of BC7, and one without.
pub fn bc7_blocks() -> Vec<[u8; 16]> {
    let rest = [0x3a, 0x9c, 0x71, 0xe4, 0x27, 0x0b, 0x86, 0x1f, 0x3d, 0x5b, 0x79, 0x97, 0xa6, 0xc4, 0xe2];
    let with = |first: u8, rest: [u8; 15]| std::array::from_fn(|k| if k == 0 { first } else { rest[k - 1] });
    let modes = [0x5d, 0x5e, 0x5c, 0x58, 0xb0, 0x60, 0x40, 0x80].map(|first| with(first, rest));
    modes.into_iter().chain([with(0, [0xff; 15])]).collect()
}

/// S16 and S17 once more, S17 with an image that is longer than the picture.
pub fn picture_cases() -> Vec<Case> {
    let two = [S2, [0; 8]].concat();
    let four = [[0; 8], [0; 8], [0; 8], [4, 0, 0, 2, 0xff, 0xff, 0, 0]].concat();
    let case = |reader, (width, height), data: &[u8], elements| Case {
        reader,
        channel: 0,
        width,
        height,
        data: data.to_vec(),
        image: vec![OLD; elements],
    };
    let seventeen = [(32, 25), (32, 26), (31, 25), (32, 24), (31, 24)];
    let shown = seventeen.into_iter().map(|(bytes, elements)| case(ETC1, (5, 5), &four[..bytes], elements));
    [case(ETC1, (5, 1), &two, 6), case(STRICT, (5, 1), &two, 6)].into_iter().chain(shown).collect()
}
