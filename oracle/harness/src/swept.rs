//! What is stored of every size, gap, length and cut: rows, and the whole cases whose numbers have 64 bits. The answers are the
//! crate's by the listed equations, and document 01's and 02's tables of refusals.

use crate::expected::expected;
use crate::pitched::needed;
use crate::protocol::Answer;
use crate::readers::*;
use crate::rules::{blocks_across, LIMIT};
use crate::stored::{List, Row, Whole};

type Due = (Row, Answer);

/// The numbers that the seeds of a reader's rows come from.
const ORDER: [u32; 19] = [
    ETC1,
    RGB,
    RGBA1,
    RGBA8,
    EACR,
    EACR_SIGNED,
    EACRG,
    EACRG_SIGNED,
    STRICT,
    BC1,
    BC1A,
    BC3,
    BC7,
    OPAQUE,
    BC2,
    BC4,
    BC4_SIGNED,
    BC5,
    BC5_SIGNED,
];

const LARGEST: u64 = u64::MAX;

const SIZES: [(u64, u64); 13] = [
    (16_384, 0),
    (65_536, 0),
    (65_537, 0),
    (0, 65_536),
    (0, 65_537),
    (0, 0),
    (1, 1),
    (65_536, 65_536),
    (65_536, 65_537),
    (LARGEST, 0),
    (0, LARGEST),
    (LARGEST, LARGEST),
    (1 << 32, 1 << 32),
];

const PITCHES: [(u64, u64, u64); 19] = [
    (65_536, 0, 65_536),
    (0, 65_536, 65_536),
    (5, 0, 65_536),
    (5, 0, 65_537),
    (0, 5, 65_537),
    (65_537, 0, 65_537),
    (65_536, 0, 65_535),
    (65_537, 0, 4),
    (5, 65_537, 4),
    (5, 0, 4),
    (5, 5, 4),
    (5, 5, 5),
    (0, 0, 0),
    (0, 7, 0),
    (65_536, 65_536, 65_536),
    (5, 5, LARGEST),
    (5, LARGEST, LARGEST),
    (LARGEST, LARGEST, LARGEST),
    (4, 1 << 32, 1 << 32),
];

pub fn put(list: &mut List, listed: &[String]) {
    list.wholes("every picture reader: around the limits", &around_the_limits());
    for (turn, reader) in ORDER.into_iter().enumerate() {
        list.rows(&format!("every size: {}", name(reader)), &sizes(turn as u32, reader, listed));
    }
    list.wholes("every pitch: around the limits", &around_the_pitches());
    list.rows("with a pitch: the longest", &longest(listed));
    for (turn, reader) in ORDER.into_iter().enumerate() {
        list.rows(&format!("every gap: {}", name(reader)), &gaps(turn as u32, reader, listed));
    }
    for reader in BLOCKS {
        list.rows(&format!("every length: {}", name(reader)), &lengths(reader, listed));
    }
}

/// A row with what is due.
fn answered(row: Row, listed: &[String]) -> Due {
    let due = expected(&row.case(), listed).answer;
    (row, due)
}

// Nothing is lent, so that what has a pixel is short of data.
fn empty(reader: u32, (width, height): (u64, u64), pitch: Option<u64>) -> Whole {
    let limit = LIMIT as u64;
    let number = match pitch {
        _ if width > limit || height > limit || pitch.is_some_and(|pitch| pitch > limit) => 1,
        Some(pitch) if pitch < width => 12,
        _ if width * height > 0 => 2,
        _ => 0,
    };
    let number_of = if pitch.is_some() { reader + PITCHED } else { reader };
    let numbers = [number_of as u64, pitch.unwrap_or(0), 0, 0, width, height];
    Whole { numbers, data: Vec::new(), image: Vec::new(), due: Answer { number, block: 0, image: Vec::new() } }
}

fn every_reader() -> impl Iterator<Item = u32> {
    ORDER.into_iter().chain(WIDE_EACR..=WIDE_EACRG_SIGNED)
}

fn around_the_limits() -> Vec<Whole> {
    SIZES.iter().flat_map(|&size| every_reader().map(move |reader| empty(reader, size, None))).collect()
}

fn around_the_pitches() -> Vec<Whole> {
    let of = |&(width, height, pitch): &(u64, u64, u64)| {
        every_reader().map(move |reader| empty(reader, (width, height), Some(pitch)))
    };
    PITCHES.iter().flat_map(of).collect()
}

fn bytes_of(reader: u32, width: u32, height: u32) -> usize {
    blocks_across(width) * blocks_across(height) * block_size(reader)
}

fn small() -> impl Iterator<Item = (u32, u32)> {
    (0..10).flat_map(|width| (0..10).map(move |height| (width, height)))
}

fn seed(turn: u32, (width, height): (u32, u32)) -> u32 {
    turn * 100 + width * 10 + height
}

// One byte less than enough, one element less, and two elements more.
fn sizes(turn: u32, reader: u32, listed: &[String]) -> Vec<Due> {
    let mut rows = Vec::new();
    for size in small() {
        let (bytes, elements) = (bytes_of(reader, size.0, size.1), (size.0 * size.1) as usize);
        let mut add = |lengths| {
            let row = Row::of_reader(reader, 0, size, lengths, seed(turn, size), reader == STRICT);
            rows.push(answered(row, listed));
        };
        if bytes > 0 {
            add((bytes - 1, elements));
            add((bytes, elements - 1));
        }
        add((bytes, elements + 2));
    }
    rows
}

// Gaps of none to five elements: a pitch below the width, one byte less than enough, one element less, and more than enough. Strict
// is lent no bytes behind its blocks, which the others ignore.
fn gaps(turn: u32, reader: u32, listed: &[String]) -> Vec<Due> {
    let mut rows = Vec::new();
    for (size, gap) in small().flat_map(|size| (0..6).map(move |gap| (size, gap))) {
        let pitch = size.0 + gap;
        let (bytes, elements) = (bytes_of(reader, size.0, size.1), needed(size.0, size.1, pitch));
        let lent = if reader == STRICT { bytes } else { 144 };
        let mut add = |pitch, lengths| {
            let row = Row::of_reader(reader + PITCHED, pitch, size, lengths, seed(turn, size), reader == STRICT);
            rows.push(answered(row, listed));
        };
        if size.0 > 0 && gap == 0 {
            add(size.0 - 1, (144, 128));
        }
        if bytes > 0 {
            add(pitch, (bytes - 1, 128));
            add(pitch, (lent, elements - 1));
        }
        add(pitch, (lent, 128));
    }
    rows
}

// One row, one column, and two rows as far apart as they can be; strict once more, with exactly its bytes.
fn longest(listed: &[String]) -> Vec<Due> {
    let mut rows = Vec::new();
    for (size, pitch) in [((65_536, 1), 65_536), ((1, 65_536), 1), ((4, 2), 65_536)] {
        for (turn, reader) in ORDER.into_iter().enumerate() {
            let row = Row::of_reader(reader + PITCHED, pitch, size, (262_144, 65_544), turn as u32, reader == STRICT);
            rows.push(answered(row, listed));
        }
        let exact = (bytes_of(STRICT, size.0, size.1), 65_544);
        rows.push(answered(Row::of_reader(STRICT + PITCHED, pitch, size, exact, 8, true), listed));
    }
    rows
}

// Every length of the data and of the image; both short; and a bad channel, which is found before either.
fn lengths(reader: u32, listed: &[String]) -> Vec<Due> {
    let lengths =
        (0..18).map(|n| (3, (n, 16))).chain((0..18).map(|m| (3, (16, m)))).chain([(3, (7, 15)), (4, (7, 15))]);
    let row = |(channel, lengths)| Row::of_reader(reader, channel, (0, 0), lengths, reader, false);
    lengths.map(|case| answered(row(case), listed)).collect()
}
