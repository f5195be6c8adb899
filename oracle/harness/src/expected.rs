//! What the answer to a case must be: the crate's own answer and image, changed by the
//! equations of the differences that are listed. Refusals that the crate does not have
//! come from document 01's table. The crate has no census: those are counted here.

use crate::census;
use crate::pitched;
use crate::protocol::{Answer, Case};
use crate::readers::*;
use crate::rules::verdict;
use std::cmp::Ordering;

/// The differences of docs/DIFFERENCES.md, by their names there. The first is the
/// refusals 1, 4, 5 and 12, and the block readers' 2 and 3.
pub const REFUSALS_ADDED: &str = "refusals-added";
pub const RGBA1_TRANSPARENT: &str = "rgba1-transparent";
pub const EAC_INDEX_ORDER: &str = "eac-index-order";
pub const EAC_LOWEST_BASE: &str = "eac-lowest-base";
pub const BC3_FOUR_COLOURS: &str = "bc3-four-colours";
pub const BC3_ALPHA_END: &str = "bc3-alpha-end";
pub const BC2_FOUR_COLOURS: &str = "bc2-four-colours";

pub fn is_listed(listed: &[String], name: &str) -> bool {
    listed.iter().any(|other| other == name)
}

pub struct Expected {
    pub answer: Answer,
    /// Elements at which a listed difference makes this another image than the crate's.
    pub touched: usize,
}

pub fn expected(case: &Case, listed: &[String]) -> Expected {
    if is_census(case.reader) {
        return Expected { answer: census::counted(case), touched: 0 };
    }
    if is_pitched(case.reader) {
        return pitched::expected(case, listed);
    }
    let (number, block) = verdict(case);
    if matches!(number, 2 | 3) && !is_block(case.reader) {
        return Expected { answer: crate_answer(case), touched: 0 };
    }
    if number != 0 {
        let answer = Answer { number, block, image: case.image.clone() };
        return Expected { answer, touched: 0 };
    }
    let given = by_crate(case);
    let image = by_equation(case, &given, listed);
    let touched = image.iter().zip(&given).filter(|(a, b)| a != b).count();
    Expected { answer: Answer { number, block, image }, touched }
}

fn by_equation(case: &Case, given: &[u32], listed: &[String]) -> Vec<u32> {
    match half(case.reader, false) {
        Half::Rgba1 if is_listed(listed, RGBA1_TRANSPARENT) => transparent_is_zero(case, given),
        Half::Eac if is_listed(listed, EAC_LOWEST_BASE) => in_listed_order(&lowest_base_raised(case), listed),
        Half::Eac => in_listed_order(case, listed),
        Half::Nibbles if is_listed(listed, BC2_FOUR_COLOURS) => by_crate(&colours_exchanged(case)),
        Half::Rgtc if is_signed(case.reader) => signed_values(case),
        Half::DesktopAlpha if case.reader == BLOCK_BC3_ALPHA => first_sixteen(case, given, listed),
        Half::DesktopAlpha => {
            let four = is_listed(listed, BC3_FOUR_COLOURS).then(|| by_crate(&colours_exchanged(case)));
            let given = four.unwrap_or_else(|| given.to_vec());
            if is_block(case.reader) {
                first_sixteen(case, &given, listed)
            } else {
                given
            }
        }
        _ => given.to_vec(),
    }
}

fn in_listed_order(case: &Case, listed: &[String]) -> Vec<u32> {
    if is_listed(listed, EAC_INDEX_ORDER) {
        khronos_order(case)
    } else {
        by_crate(case)
    }
}

/// The case with each signed base of -128 made -127: what the crate has to be given to
/// show what a reader shows that knows no lower one.
fn lowest_base_raised(case: &Case) -> Case {
    let mut raised = case.clone();
    if is_signed(case.reader) {
        raised.data.chunks_mut(8).for_each(|b| b[0] = if b[0] == 0x80 { 0x81 } else { b[0] });
    }
    raised
}

/// RGBA1: the crate's image with pixels of alpha 0 set to 0, where it painted.
fn transparent_is_zero(case: &Case, given: &[u32]) -> Vec<u32> {
    let painted = painted(case);
    let zeroed = |(k, &pixel): (usize, &u32)| if k < painted && pixel >> 24 == 0 { 0 } else { pixel };
    given.iter().enumerate().map(zeroed).collect()
}

/// BC2 and BC3: the blocks of which the crate's reading is the public one, four colours whatever their order. Where the first
/// is below the second they are exchanged, and with them the indices 0 and 1, and 2 and 3; two equal ones are one colour.
fn colours_exchanged(case: &Case) -> Case {
    let mut exchanged = case.clone();
    for half in exchanged.data.chunks_exact_mut(16).map(|block| &mut block[8..]) {
        let order = u16::from_le_bytes([half[0], half[1]]).cmp(&u16::from_le_bytes([half[2], half[3]]));
        let indices = u32::from_le_bytes([half[4], half[5], half[6], half[7]]);
        let indices = match order {
            Ordering::Greater => indices,
            Ordering::Equal => 0,
            Ordering::Less => indices ^ 0x5555_5555,
        };
        if order == Ordering::Less {
            (half[0], half[1], half[2], half[3]) = (half[2], half[3], half[0], half[1]);
        }
        half[4..].copy_from_slice(&indices.to_le_bytes());
    }
    exchanged
}

/// BC4 and BC5, signed: the unsigned rule of the bytes 127 above the values, of which -128 is -127. None of them is 255, so where that comes
/// back it is the greatest value of the fifths, and 254.
fn signed_values(case: &Case) -> Vec<u32> {
    let mut moved = case.clone();
    let as_byte = |b: u8| ((b as i8).max(-127) as i16 + 127) as u8;
    moved.data.chunks_exact_mut(8).for_each(|half| (half[0], half[1]) = (as_byte(half[0]), as_byte(half[1])));
    let mut image = by_crate(&moved);
    for pixel in &mut image[..painted(case)] {
        let [blue, green, red, alpha] = pixel.to_le_bytes();
        *pixel = u32::from_le_bytes([blue, green.min(254), red.min(254), alpha]);
    }
    image
}

/// BC3's alpha half, alone or in a block: the crate's elements 0 to 15, and behind them what stood there.
fn first_sixteen(case: &Case, given: &[u32], listed: &[String]) -> Vec<u32> {
    let end = if is_listed(listed, BC3_ALPHA_END) { 16 } else { given.len() };
    [&given[..end], &case.image[end..]].concat()
}

fn painted(case: &Case) -> usize {
    if is_block(case.reader) {
        return 16;
    }
    case.width as usize * case.height as usize
}

/// EAC: the crate takes its indices from bytes 5 down to 0 where the Khronos order has
/// 2 up to 7. So its image of b0 .. b7 is the Khronos one of b0 b1 b5 b4 b3 b2 b1 b0,
/// and blocks of that form are held to it as they are; others column by column.
fn khronos_order(case: &Case) -> Vec<u32> {
    if case.data.chunks_exact(8).all(|b| (b[6], b[7]) == (b[1], b[0])) {
        return by_crate(&turned_round(case));
    }
    columns_in_order(case)
}

// The blocks of which the crate's reading amounts to these. Its bytes 6 and 7 are not
// looked at.
fn turned_round(case: &Case) -> Case {
    let mut turned = case.clone();
    for b in turned.data.chunks_exact_mut(8) {
        b[2..6].reverse();
        (b[6], b[7]) = (!b[6], !b[7]);
    }
    turned
}

/// The crate's columns 0 and 1 need bytes 5, 4, 3 alone, so two runs of it give every
/// block its due: one with our bytes 2, 3, 4 there for columns 0 and 1, and one with
/// our bytes 5, 6, 7 for columns 2 and 3, two columns to the left.
fn columns_in_order(case: &Case) -> Vec<u32> {
    let left = by_crate(&with_indices(case, 2));
    let right = by_crate(&moved_left(&with_indices(case, 5)));
    let width = if is_block(case.reader) { 4 } else { case.width as usize };
    let mut image = left;
    for k in 0..painted(case) {
        if k % width % 4 >= 2 {
            image[k] = right[k - 2];
        }
    }
    image
}

// The same base and multiplier, with the three index bytes from `from` on where the
// crate looks for those of columns 0 and 1.
fn with_indices(case: &Case, from: usize) -> Case {
    let mut turned = case.clone();
    for (new, old) in turned.data.chunks_exact_mut(8).zip(case.data.chunks_exact(8)) {
        (new[5], new[4], new[3]) = (old[from], old[from + 1], old[from + 2]);
    }
    turned
}

// What stood in columns 2 and 3 is put into columns 0 and 1: the readers of one
// channel keep it.
fn moved_left(case: &Case) -> Case {
    let mut moved = case.clone();
    if is_block(case.reader) {
        for k in (0..16).filter(|k| k % 4 < 2) {
            moved.image[k] = case.image[k + 2];
        }
    }
    moved
}

/// The crate's own image for a case that the table accepts.
fn by_crate(case: &Case) -> Vec<u32> {
    let answer = crate_answer(case);
    assert_eq!(answer.number, 0, "the crate refuses what the table accepts");
    answer.image
}

/// What the crate does. It must not be asked what only the table refuses.
pub fn crate_answer(case: &Case) -> Answer {
    let mut image = case.image.clone();
    let number = if is_block(case.reader) {
        crate_block(case, &mut image);
        0
    } else {
        crate_picture(case, &mut image).map_or_else(number_of, |()| 0)
    };
    Answer { number, block: 0, image }
}

// The crate refuses with a text.
fn number_of(refusal: &str) -> u32 {
    match refusal {
        "Not enough data to decode image!" => 2,
        "Image buffer is too small!" => 3,
        _ => u32::MAX,
    }
}

fn crate_picture(case: &Case, image: &mut [u32]) -> Result<(), &'static str> {
    let decode = match case.reader {
        ETC1 => given::decode_etc1,
        RGB | STRICT | OPAQUE => given::decode_etc2_rgb,
        RGBA1 => given::decode_etc2_rgba1,
        RGBA8 => given::decode_etc2_rgba8,
        EACR => given::decode_eacr,
        EACR_SIGNED => given::decode_eacr_signed,
        EACRG => given::decode_eacrg,
        EACRG_SIGNED => given::decode_eacrg_signed,
        BC1 => given::decode_bc1,
        BC1A => given::decode_bc1a,
        BC3 => given::decode_bc3,
        BC2 => given::decode_bc2,
        BC4 | BC4_SIGNED => given::decode_bc4,
        BC5 | BC5_SIGNED => given::decode_bc5,
        _ => given::decode_bc7,
    };
    decode(&case.data, case.width as usize, case.height as usize, image)
}

fn crate_block(case: &Case, image: &mut [u32]) {
    let data = &case.data;
    match case.reader {
        BLOCK_ETC1 => given::decode_etc1_block(data, image),
        BLOCK_RGB => given::decode_etc2_rgb_block(data, image),
        BLOCK_RGBA1 => given::decode_etc2_rgba1_block(data, image),
        BLOCK_A8 => given::decode_etc2_a8_block(data, image),
        BLOCK_RGBA8 => given::decode_etc2_rgba8_block(data, image),
        BLOCK_EAC => given::decode_eac_block(data, case.channel as usize, image),
        BLOCK_EAC_SIGNED => given::decode_eac_signed_block(data, case.channel as usize, image),
        BLOCK_EACR => given::decode_eacr_block(data, image),
        BLOCK_EACR_SIGNED => given::decode_eacr_signed_block(data, image),
        BLOCK_EACRG => given::decode_eacrg_block(data, image),
        BLOCK_EACRG_SIGNED => given::decode_eacrg_signed_block(data, image),
        BLOCK_BC1 => given::decode_bc1_block(data, image),
        BLOCK_BC1A => given::decode_bc1a_block(data, image),
        BLOCK_BC3 => given::decode_bc3_block(data, image),
        BLOCK_BC2 => given::decode_bc2_block(data, image),
        BLOCK_BC4 | BLOCK_BC4_SIGNED => given::decode_bc4_block(data, image),
        BLOCK_BC5 | BLOCK_BC5_SIGNED => given::decode_bc5_block(data, image),
        BLOCK_BC3_ALPHA => given::decode_bc3_alpha(data, image, case.channel as usize),
        _ => given::decode_bc7_block(data, image),
    }
}
