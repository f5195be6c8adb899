//! The bytes of blocks: random, of each kind in equal shares, of edge values, each byte value
//! in each position, and T and H with each distance number and each order of H's bases.

use crate::random::Random;
use crate::readers::{half, is_eac, Half};
use crate::rules::is_outside;
use std::cmp::Ordering;

#[derive(Clone, Copy, PartialEq)]
pub enum Fill {
    Random,
    /// Each kind in its turn, counted on from this number of blocks.
    Kinds(usize),
    Edges,
    /// Every value in every position, counted on from this number of blocks.
    EveryByte(usize),
    /// EAC: the index bytes 6 and 7 repeat bytes 1 and 0, as in the crate's reading.
    CrateOrder,
    /// No block with a sum out of range, or of RGBA1 with its opaque bit clear, but for the one that is named, if any.
    InRange(Option<usize>),
    /// T and H in each of their modes in its turn, counted on from this number of blocks.
    Modes(usize),
}

/// T with each of its eight distance numbers; then H with each number that its two bits give
/// and each way in which the order of its bases is decided.
pub const MODES: usize = 8 + 4 * ORDERS.len();

/// How the order of H's bases is decided: by which channel, red first, and whether c0 has
/// more there than c1. None: the bases are equal.
const ORDERS: [Option<(usize, bool)>; 7] =
    [Some((0, false)), Some((0, true)), Some((1, false)), Some((1, true)), Some((2, false)), Some((2, true)), None];

const EDGES: [u8; 20] = [
    0x00, 0x01, 0x02, 0x03, 0x04, 0x07, 0x08, 0x0f, 0x10, 0x1c, 0x24, 0x3f, 0x7f, 0x80, 0x81, 0xe0, 0xf8, 0xf9, 0xfe,
    0xff,
];

/// `length` bytes of blocks for the reader; the last may be cut short.
pub fn bytes(reader: u32, size: usize, length: usize, fill: Fill, random: &mut Random) -> Vec<u8> {
    let mut out = Vec::with_capacity(length + 16);
    while out.len() < length {
        let number = out.len() / size;
        for second in [false, true].into_iter().take(size / 8) {
            out.extend_from_slice(&eight(half(reader, second), fill, number, random));
        }
        if let Fill::EveryByte(from) = fill {
            let count = from + number;
            let place = out.len() - size + count / 256 % size;
            out[place] = count as u8;
        }
    }
    if fill == Fill::CrateOrder && is_eac(reader) {
        out.chunks_exact_mut(8).for_each(|b| (b[6], b[7]) = (b[1], b[0]));
    }
    out.truncate(length);
    out
}

fn eight(half: Half, fill: Fill, number: usize, random: &mut Random) -> [u8; 8] {
    match fill {
        Fill::Random | Fill::CrateOrder => random.next().to_le_bytes(),
        Fill::Kinds(from) => of_kind(half, from + number, random),
        Fill::Edges => std::array::from_fn(|_| EDGES[random.below(EDGES.len())]),
        Fill::EveryByte(from) => background(half, (from + number) / 4096, random),
        Fill::InRange(new) if half == Half::Rgba1 => opaque(new != Some(number), number, random),
        Fill::InRange(new) if new == Some(number) => colour(2 + random.below(3), random),
        Fill::InRange(_) => colour(number % 2, random),
        Fill::Modes(from) => of_mode(half, from + number, random),
    }
}

// Each kind of RGBA1 in its turn, with the opaque bit so.
fn opaque(set: bool, number: usize, random: &mut Random) -> [u8; 8] {
    let mut block = colour(1 + number % 4, random);
    block[3] = block[3] & !2 | (set as u8) << 1;
    block
}

// What surrounds the byte that takes every value.
fn background(half: Half, which: usize, random: &mut Random) -> [u8; 8] {
    match which % 4 {
        0 => [0; 8],
        1 => [0xff; 8],
        2 => random.next().to_le_bytes(),
        _ => {
            let kind = random.below(40);
            of_kind(half, kind, random)
        }
    }
}

fn of_kind(half: Half, number: usize, random: &mut Random) -> [u8; 8] {
    match half {
        Half::Etc1 | Half::Rgb => colour(number % 5, random),
        Half::Rgba1 => opaque(number / 4 % 2 == 1, number, random),
        Half::Alpha | Half::Eac => channel(number % 8, random),
        Half::Desktop => desktop(number % 6, random),
        Half::DesktopAlpha => desktop_alpha(number % 6, random),
        Half::Rgtc => rgtc(number % 8, random),
        Half::Bc7 => bc7(number, random),
        Half::Bc7Rest | Half::Nibbles => random.next().to_le_bytes(),
    }
}

// BC1 and BC3: the first colour above the second, below it, equal to it, and two that differ in one channel alone, in both orders.
pub fn desktop(kind: usize, random: &mut Random) -> [u8; 8] {
    let mut block = random.next().to_le_bytes();
    let [mut p, mut q] = [u16::from_le_bytes([block[0], block[1]]), u16::from_le_bytes([block[2], block[3]])];
    if kind >= 3 {
        let channel = [0xf800, 0x07e0, 0x001f][kind - 3];
        q = p ^ random.next() as u16 & channel;
        if random.below(2) == 0 {
            (p, q) = (q, p);
        }
    } else if kind == 2 {
        q = p;
    } else if (p > q) != (kind == 0) {
        (p, q) = (q, p);
    }
    block[..2].copy_from_slice(&p.to_le_bytes());
    block[2..4].copy_from_slice(&q.to_le_bytes());
    block
}

// The first alpha above the second, below it, equal to it; next to it, in both orders; none and all.
pub fn desktop_alpha(kind: usize, random: &mut Random) -> [u8; 8] {
    let mut block = random.next().to_le_bytes();
    let (a, b) = (block[0].max(block[1]), block[0].min(block[1]));
    (block[0], block[1]) = match kind {
        0 => (a, b),
        1 => (b, a),
        2 => (a, a),
        3 => (a | 1, a & !1),
        4 => (a & !1, a | 1),
        _ => [(0, 255), (255, 0)][random.below(2)],
    };
    block
}

// The same, and the lowest signed values, -128 and -127, beside any other and beside each other.
pub fn rgtc(kind: usize, random: &mut Random) -> [u8; 8] {
    let mut block = desktop_alpha(kind % 6, random);
    if kind >= 6 {
        block[kind - 6] = 0x80 | random.below(2) as u8;
    }
    block
}

// The first half of a BC7 block: each mode in its turn, and with each the six bits behind it in theirs, which hold the
// partition, or the rotation, the index selection and the first bits of an endpoint.
pub fn bc7(number: usize, random: &mut Random) -> [u8; 8] {
    let mode = number % 8;
    let bits = (number / 8 % 64) as u64;
    let rest = random.next() >> (mode + 7) << (mode + 7);
    (rest | bits << (mode + 1) | 1 << mode).to_le_bytes()
}

// A colour half's mode; RGBA1 has its opaque bit set in every second round. Other halves have none.
fn of_mode(half: Half, number: usize, random: &mut Random) -> [u8; 8] {
    if !matches!(half, Half::Etc1 | Half::Rgb | Half::Rgba1) {
        return of_kind(half, number, random);
    }
    let mut block = mode(number % MODES, random);
    if half == Half::Rgba1 && number / MODES % 2 == 0 {
        block[3] &= !2;
    }
    block
}

fn mode(number: usize, random: &mut Random) -> [u8; 8] {
    if number < 8 {
        return t_numbered(number as u8, random);
    }
    let mut block = h_ordered(ORDERS[(number - 8) / 4], random);
    let bits = (number % 4) as u8;
    block[3] = block[3] & !5 | (bits & 2) << 1 | bits & 1;
    block
}

// T with this distance number.
fn t_numbered(number: u8, random: &mut Random) -> [u8; 8] {
    let mut block = colour(2, random);
    block[3] = block[3] & !13 | number >> 1 << 2 | number & 1;
    block
}

// H with this order of its bases. Channels before the one that decides are equal, and later ones
// say the contrary, so that a reading that leaves the deciding one out shows it.
fn h_ordered(order: Option<(usize, bool)>, random: &mut Random) -> [u8; 8] {
    let mut block = colour(3, random);
    while h_first(&block).iter().any(|value| !(1..15).contains(value)) {
        block = colour(3, random);
    }
    let mut second = h_first(&block);
    if let Some((place, more)) = order {
        for (channel, value) in second.iter_mut().enumerate().skip(place) {
            let is_less = more == (channel == place);
            let (low, high) = if is_less { (0, *value) } else { (*value + 1, 16) };
            *value = low + random.below((high - low) as usize) as u8;
        }
    }
    set_h_second(&mut block, second);
    block
}

// H's first base: red, green and blue of four bits.
fn h_first(b: &[u8; 8]) -> [u8; 3] {
    [b[0] >> 3 & 15, (b[0] & 7) << 1 | b[1] >> 4 & 1, b[1] & 8 | (b[1] & 3) << 1 | b[2] >> 7]
}

fn set_h_second(b: &mut [u8; 8], [red, green, blue]: [u8; 3]) {
    b[2] = b[2] & 0x80 | red << 3 | green >> 1;
    b[3] = b[3] & 7 | (green & 1) << 7 | blue << 3;
}

// 0 individual, 1 differential, 2 T, 3 H, 4 planar; the bits that the kind leaves
// open are random.
pub fn colour(kind: usize, random: &mut Random) -> [u8; 8] {
    let mut block = random.next().to_le_bytes();
    if kind == 0 {
        block[3] &= !2;
        return block;
    }
    block[3] |= 2;
    for (place, byte) in block[..3].iter_mut().enumerate() {
        // Channels before the one that decides are in range, later ones are free.
        if kind == 1 || place <= kind - 2 {
            let wanted = kind != 1 && place == kind - 2;
            while is_outside(*byte) != wanted {
                *byte = random.byte();
            }
        }
    }
    if kind == 3 && random.below(4) == 0 {
        // Equal base colours, where the distance number must gain 1.
        let first = h_first(&block);
        set_h_second(&mut block, first);
    }
    block
}

// The second base colour of an H block.
fn h_second(b: &[u8; 8]) -> [u8; 3] {
    [b[2] >> 3 & 15, (b[2] & 7) << 1 | b[3] >> 7, b[3] >> 3 & 15]
}

/// How red, green and blue of the first base colour of an H block stand to the second's.
pub fn h_orders(b: &[u8; 8]) -> [Ordering; 3] {
    std::array::from_fn(|k| h_first(b)[k].cmp(&h_second(b)[k]))
}

// Alpha and EAC: multiplier 0, then bases at which values clamp low or high, the
// signed turning points, and the middle.
pub fn channel(kind: usize, random: &mut Random) -> [u8; 8] {
    let mut block = random.next().to_le_bytes();
    let near = random.below(16) as u8;
    match kind {
        0 => block[1] &= 15,
        1 => block[0] = near,
        2 => block[0] = 0xff - near,
        3 => block[0] = 0x80 + near,
        4 => block[0] = 0x7f - near,
        5 => block[0] = 0x80,
        6 => (block[0], block[1]) = ([0, 0x7f, 0x80, 0xff][random.below(4)], block[1] & 15),
        _ => block[1] |= 0x10,
    }
    block
}
