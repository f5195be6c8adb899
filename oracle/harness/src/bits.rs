//! The bit reader, by a shift of the bytes as one number; and BC7 blocks that begin at any bit, by the crate on the bytes moved there.

use crate::expected::expected;
use crate::protocol::{Answer, Case};
use crate::readers::BLOCK_BC7;
use crate::specimens::bc7_blocks;
use crate::stored::{sample, List, Row, Whole, OLD};

const BITS: u32 = 168;
const HELD: u32 = 169;

/// The bits from a place on, lowest first, in so many bytes.
fn moved(data: &[u8], place: usize, bytes: usize) -> Vec<u8> {
    let bit = |k: usize| data[k / 8] >> (k % 8) & 1;
    (0..bytes).map(|at| (0..8).map(|k| bit(place + 8 * at + k) << k).sum()).collect()
}

fn is_past(data: &[u8], place: usize, n: usize) -> bool {
    (place + n).div_ceil(8) > data.len()
}

// The value and the place behind it; or the place, and no value.
fn read(data: &[u8], place: usize, n: usize) -> Answer {
    if n > 8 || is_past(data, place, n) {
        return Answer { number: 2, block: 0, image: vec![place as u32, 0, OLD] };
    }
    let value: u32 = (0..n).map(|k| ((data[(place + k) / 8] >> ((place + k) % 8) & 1) as u32) << k).sum();
    Answer { number: 0, block: 0, image: vec![value, (place + n) as u32, 0] }
}

fn reads() -> Vec<(Row, Answer)> {
    let mut rows = Vec::new();
    for (length, place, n) in (0..5).flat_map(|l| (0..41).flat_map(move |p| (0..10).map(move |n| (l, p, n)))) {
        let row = Row { numbers: [BITS, place, n, 0, 0, 0], length, elements: 3, seed: 7 + place, plain: false };
        let due = read(&row.data(), place as usize, n as usize);
        rows.push((row, due));
    }
    rows
}

// Places at which a sum would wrap.
fn far() -> Vec<Whole> {
    let places = [u64::MAX, u64::MAX - 1, u64::MAX - 7, u64::MAX - 8, 1 << 63, 1 << 32];
    let of = |place: u64, n: u64| {
        let image = vec![place as u32, (place >> 32) as u32, OLD];
        let due = Answer { number: 2, block: 0, image };
        Whole { numbers: [BITS as u64, place, n, 0, 0, 0], data: sample(4, 1, false), image: vec![OLD; 3], due }
    };
    let held = |place: u64| {
        let due = Answer { number: 2, block: 0, image: vec![OLD; 16] };
        Whole { numbers: [HELD as u64, place, 0, 0, 0, 0], data: sample(32, 1, false), image: vec![OLD; 16], due }
    };
    let reads = places.into_iter().flat_map(|place| (0..10).map(move |n| of(place, n)));
    reads.chain(places.into_iter().map(held)).collect()
}

fn block(data: &[u8], place: usize, elements: usize, listed: &[String]) -> Answer {
    let image = vec![OLD; elements];
    if is_past(data, place, 128) {
        return Answer { number: 2, block: 0, image };
    }
    if elements < 16 {
        return Answer { number: 3, block: 0, image };
    }
    let data = moved(data, place, 16);
    expected(&Case { reader: BLOCK_BC7, channel: 0, width: 0, height: 0, data, image }, listed).answer
}

fn held(listed: &[String]) -> Vec<(Row, Answer)> {
    let mut shapes: Vec<(usize, u32, usize, u32)> = (0..166).map(|place| (36, place, 16, 1)).collect();
    shapes.extend((0..32).flat_map(|seed| (0..8).map(move |place| (17, place, 17, seed))));
    shapes.extend((0..20).flat_map(|length| (0..10).map(move |place| (length, place, 16, 3))));
    shapes.extend((0..18).map(|elements| (17, 5, elements, 4)));
    let row = |(length, place, elements, seed)| {
        let row = Row { numbers: [HELD, place, 0, 0, 0, 0], length, elements, seed, plain: false };
        let due = block(&row.data(), place as usize, elements, listed);
        (row, due)
    };
    shapes.into_iter().map(row).collect()
}

// A block of each mode, and one without, at each bit of a byte, between bits that are set.
fn modes(listed: &[String]) -> Vec<Whole> {
    let mut list = Vec::new();
    for (bytes, place) in bc7_blocks().into_iter().flat_map(|bytes| (0..8).map(move |place| (bytes, place))) {
        let number = u128::from_le_bytes(bytes);
        let low = number << place | ((1 << place) - 1);
        let high = if place == 0 { 0xff } else { (number >> (128 - place)) as u8 | 0xff << place };
        let data = [&low.to_le_bytes()[..], &[high]].concat();
        let due = block(&data, place, 17, listed);
        list.push(Whole { numbers: [HELD as u64, place as u64, 0, 0, 0, 0], data, image: vec![OLD; 17], due });
    }
    list
}

pub fn put(list: &mut List, listed: &[String]) {
    list.rows("bits: every place and number", &reads());
    list.wholes("bits: the largest places", &far());
    list.rows("bc7 block at any bit", &held(listed));
    list.wholes("bc7 block at any bit: every mode", &modes(listed));
}
