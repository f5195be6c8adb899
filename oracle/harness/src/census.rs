//! The censuses of M-100, counted from the bytes alone: one test for each kind of block, and a
//! run over all blocks for each test.

use crate::protocol::{ask, Answer, Case, Pair};
use crate::readers::{CENSUS_RGB, CENSUS_RGBA1};
use crate::report::Report;
use crate::rules::{blocks, is_outside, verdict};
use std::io::Result;

type Test = fn([bool; 3]) -> bool;

/// Differential, T, H and planar, by the channels whose sum is out of range.
const KINDS: [Test; 4] = [
    |outside| outside == [false; 3],
    |outside| outside[0],
    |outside| matches!(outside, [false, true, _]),
    |outside| outside == [false, false, true],
];

/// What is due: the counts in the first elements, or a refusal and no count.
pub fn counted(case: &Case) -> Answer {
    let (number, block) = verdict(case);
    let mut image = case.image.clone();
    if number == 0 {
        let counts = counts(case);
        image[..counts.len()].copy_from_slice(&counts);
    }
    Answer { number, block, image }
}

// RGB: individual, then the four kinds of blocks with the bit set. RGBA1: the four with the
// bit set, and the four with the bit clear.
fn counts(case: &Case) -> Vec<u32> {
    let blocks: Vec<&[u8]> = case.data.chunks_exact(8).take(blocks(case)).collect();
    let is_set = |block: &[u8]| block[3] & 2 != 0;
    let outside = |block: &[u8]| [block[0], block[1], block[2]].map(is_outside);
    let count = |test: &dyn Fn(&[u8]) -> bool| blocks.iter().filter(|block| test(block)).count() as u32;
    let kinds = |set: bool| KINDS.map(|kind| count(&|block| is_set(block) == set && kind(outside(block))));
    if case.reader == CENSUS_RGB {
        [&[count(&|block| !is_set(block))][..], &kinds(true)].concat()
    } else {
        [kinds(true), kinds(false)].concat()
    }
}

/// Blocks of document 01's specimens, and of them with the bit turned, whose kinds it names.
const S1: [u8; 8] = [0; 8];
const S2: [u8; 8] = [4, 0, 0, 2, 0, 0, 0, 0];
const S3: [u8; 8] = [0, 4, 0, 2, 0, 0, 0, 0];
const S4: [u8; 8] = [0, 0, 4, 2, 0, 0, 0, 0x3f];
const S5: [u8; 8] = [0x80, 0, 0, 0, 0xff, 0xff, 0, 0];
const S6: [u8; 8] = [0xf8, 0, 0, 2, 0, 0, 0, 0];
const S7: [u8; 8] = [0xf9, 0, 0, 2, 0, 0, 0, 0];
const ALL_OUT: [u8; 8] = [4, 4, 4, 2, 0, 0, 0, 0];
const CLEAR_T: [u8; 8] = [4, 0, 0, 0, 0, 0, 0, 0];
const CLEAR_H: [u8; 8] = [0, 4, 4, 0, 0, 0, 0, 0];
const CLEAR_PLANAR: [u8; 8] = [0, 0, 4, 0, 0, 0, 0, 0];

/// Each block as a picture of its own: the place of its kind among the counts of RGB, and of RGBA1.
const ALONE: [([u8; 8], usize, usize); 11] = [
    (S1, 0, 4),
    (S2, 2, 1),
    (S3, 3, 2),
    (S4, 4, 3),
    (S5, 0, 4),
    (S6, 1, 0),
    (S7, 2, 1),
    (ALL_OUT, 2, 1),
    (CLEAR_T, 0, 5),
    (CLEAR_H, 0, 6),
    (CLEAR_PLANAR, 0, 7),
];

fn alone() -> impl Iterator<Item = Pair> {
    ALONE.iter().flat_map(|(block, rgb, rgba1)| {
        let one = |places: usize, place: usize| (0..places).map(|k| (k == place) as u32).collect::<Vec<u32>>();
        [accepted(CENSUS_RGB, (4, 4), block, &one(5, *rgb)), accepted(CENSUS_RGBA1, (4, 4), block, &one(8, *rgba1))]
    })
}

/// Pictures counted by hand: reader, size, blocks, what is due.
pub fn specimens() -> Vec<Pair> {
    let mixed = [S1, S6, S2, S3, S4, S7, ALL_OUT, CLEAR_T, CLEAR_H, CLEAR_PLANAR, S5, S5].concat();
    let mut list: Vec<Pair> = alone().collect();
    list.extend([
        accepted(CENSUS_RGB, (16, 12), &mixed, &[6, 1, 3, 1, 1]),
        accepted(CENSUS_RGB, (9, 5), &mixed, &[1, 1, 2, 1, 1]),
        accepted(CENSUS_RGB, (0, 9), &mixed, &[0, 0, 0, 0, 0]),
        accepted(CENSUS_RGBA1, (16, 12), &mixed, &[1, 3, 1, 1, 3, 1, 1, 1]),
        accepted(CENSUS_RGBA1, (9, 5), &mixed, &[1, 2, 1, 1, 1, 0, 0, 0]),
        refused(CENSUS_RGB, (16, 12), &mixed[..95], 2, 5),
        refused(CENSUS_RGBA1, (65_537, 0), &[], 1, 8),
        refused(CENSUS_RGB, (16, 12), &mixed, 3, 4),
        refused(CENSUS_RGBA1, (16, 12), &mixed, 3, 7),
    ]);
    list
}

const OLD: u32 = 0x1111_1111;

fn case(reader: u32, (width, height): (u32, u32), data: &[u8], elements: usize) -> Case {
    Case { reader, channel: 0, width, height, data: data.to_vec(), image: vec![OLD; elements] }
}

// One element more than there are counts.
fn accepted(reader: u32, size: (u32, u32), data: &[u8], counts: &[u32]) -> Pair {
    let image = [counts, &[OLD]].concat();
    (case(reader, size, data, image.len()), Answer { number: 0, block: 0, image })
}

fn refused(reader: u32, size: (u32, u32), data: &[u8], number: u32, elements: usize) -> Pair {
    (case(reader, size, data, elements), Answer { number, block: 0, image: vec![OLD; elements] })
}

/// The pictures counted by hand, held to the program and to the count made here.
pub fn by_hand(program: &str) -> Result<bool> {
    let (cases, due): (Vec<Case>, Vec<Answer>) = specimens().into_iter().unzip();
    let mut report = Report::new("censuses counted by hand".to_string(), "", 2 * cases.len());
    for ((case, got), due) in ask(program, cases)?.into_iter().zip(due) {
        report.count(&case, &due, &got, 0);
        report.count(&case, &due, &counted(&case), 0);
    }
    Ok(report.close())
}
