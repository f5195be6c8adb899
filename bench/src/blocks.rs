//! Blocks to read: random bytes, and a natural mix of kinds.

/// A small random generator (xorshift), so that every run has the same pictures.
pub struct Random(u64);

impl Random {
    pub fn new(seed: u64) -> Random {
        Random(seed.wrapping_mul(0x9e37_79b9_7f4a_7c15) | 1)
    }

    pub fn next(&mut self) -> u64 {
        self.0 ^= self.0 << 13;
        self.0 ^= self.0 >> 7;
        self.0 ^= self.0 << 17;
        self.0.wrapping_mul(0x2545_f491_4f6c_dd1d) >> 16
    }

    /// A number below n.
    pub fn below(&mut self, n: u64) -> u64 {
        self.next() % n
    }
}

/// What the bytes of a block hold, eight by eight.
#[derive(Clone, Copy, PartialEq)]
pub enum Half {
    Colour,
    /// Colour without a sum out of range.
    InRange,
    /// Colour whose difference bit is the opaque bit.
    Punched,
    /// The same with that bit set in every block.
    Opaque,
    Alpha,
    Channel,
    /// The same without the base -128, which the crate reads as it is.
    SignedChannel,
    /// Two colours in any order.
    Desktop,
    /// Two alphas in any order.
    DesktopAlpha,
    /// Two colours of which the first is above the second: there the crate has four in BC3 too.
    DesktopFour,
    /// Two signed values in any order.
    SignedValues,
    /// Any bytes.
    Wide,
    /// A BC7 block, with its mode; and the rest of it.
    Bc7,
    Bc7Rest,
}

#[derive(Clone, Copy)]
enum Kind {
    Individual,
    Differential,
    T,
    H,
    Planar,
}

pub fn random(count: usize, halves: &[Half], random: &mut Random) -> Vec<u8> {
    let mut data: Vec<u8> = (0..count * halves.len() * 8).map(|_| random.next() as u8).collect();
    if halves[0] == Half::Opaque {
        data.chunks_mut(8).for_each(|block| block[3] |= 2);
    }
    for (block, half) in data.chunks_exact_mut(8).zip(halves.iter().cycle()) {
        match half {
            Half::InRange if !block[..3].iter().all(|byte| in_range(*byte)) => block[3] &= !2,
            Half::DesktopFour => (block[1], block[3]) = (block[1] | 0x80, block[3] & 0x7f),
            Half::SignedChannel => block[0] = signed_base(block[0]),
            _ => (),
        }
    }
    data
}

/// Runs of 1 to 32 blocks of one kind: 78 % differential, 13 % individual, 3 % each of T, H
/// and planar; a tenth of the RGBA1 runs and a quarter of the alpha runs are transparent or flat;
/// a tenth of the BC1 runs have three colours; of the BC7 runs 45 % are of mode 6, 25 % of mode 1, 10 % of mode 3 and 4 %
/// of each other.
pub fn natural(count: usize, halves: &[Half], random: &mut Random) -> Vec<u8> {
    let mut data = Vec::with_capacity(count * halves.len() * 8);
    let mut left = 0;
    let (mut kind, mut share) = (Kind::Differential, 0);
    for _ in 0..count {
        if left == 0 {
            left = 1 + random.below(32);
            kind = drawn(random);
            share = random.below(100);
        }
        left -= 1;
        for half in halves {
            data.extend(match half {
                Half::Colour => colour(kind, random),
                Half::InRange => colour(old(kind), random),
                Half::Punched => punched(kind, share >= 10, random),
                Half::Opaque => punched(kind, true, random),
                Half::Alpha => alpha(share < 25, random),
                Half::Channel => alpha(false, random),
                Half::SignedChannel => signed(random),
                Half::Desktop => desktop(share >= 10, random),
                Half::DesktopAlpha => desktop_alpha(share < 25, random),
                Half::DesktopFour => desktop(true, random),
                Half::SignedValues => signed_values(share < 25, random),
                Half::Bc7 => bc7(share, random),
                Half::Bc7Rest | Half::Wide => wide(random),
            });
        }
    }
    data
}

/// A kind that ETC1 has.
fn old(kind: Kind) -> Kind {
    match kind {
        Kind::Individual => Kind::Individual,
        _ => Kind::Differential,
    }
}

fn drawn(random: &mut Random) -> Kind {
    match random.below(100) {
        0..=77 => Kind::Differential,
        78..=90 => Kind::Individual,
        91..=93 => Kind::T,
        94..=96 => Kind::H,
        _ => Kind::Planar,
    }
}

/// Whether a byte's base plus step is in 0..31.
fn in_range(byte: u8) -> bool {
    let step = (byte & 7) as i8;
    let sum = (byte >> 3) as i8 + if step > 3 { step - 8 } else { step };
    (0..32).contains(&sum)
}

/// A random byte of which that is so, or is not.
fn summed(inside: bool, random: &mut Random) -> u8 {
    loop {
        let byte = random.next() as u8;
        if in_range(byte) == inside {
            return byte;
        }
    }
}

fn colour(kind: Kind, random: &mut Random) -> [u8; 8] {
    let mut block = random.next().to_le_bytes();
    block[6..].copy_from_slice(&(random.next() as u16).to_le_bytes());
    block[3] |= 2;
    let inside = match kind {
        Kind::Individual => {
            block[3] &= !2;
            return block;
        }
        Kind::Differential => [true, true, true],
        Kind::T => [false, true, true],
        Kind::H => [true, false, true],
        Kind::Planar => [true, true, false],
    };
    for (byte, inside) in block.iter_mut().zip(inside) {
        *byte = summed(inside, random);
    }
    block
}

/// RGBA1 has no individual blocks: the bit that would tell them says whether a block is opaque.
fn punched(kind: Kind, opaque: bool, random: &mut Random) -> [u8; 8] {
    let kind = match kind {
        Kind::Individual => Kind::Differential,
        other => other,
    };
    let mut block = colour(kind, random);
    if !opaque {
        block[3] &= !2;
    }
    block
}

/// A flat block has multiplier 0, any other 1 to 15.
fn alpha(flat: bool, random: &mut Random) -> [u8; 8] {
    let mut block = random.next().to_le_bytes();
    block[6..].copy_from_slice(&(random.next() as u16).to_le_bytes());
    let multiplier = if flat { 0 } else { 1 + random.below(15) as u8 };
    block[1] = multiplier << 4 | block[1] & 15;
    block
}

/// A channel of signed values.
fn signed(random: &mut Random) -> [u8; 8] {
    let mut block = alpha(false, random);
    block[0] = signed_base(block[0]);
    block
}

/// A base that library and crate read alike.
fn signed_base(base: u8) -> u8 {
    if base == 0x80 {
        0x81
    } else {
        base
    }
}

/// Four colours near each other, or three.
fn desktop(four: bool, random: &mut Random) -> [u8; 8] {
    let mut block = random.next().to_le_bytes();
    block[6..].copy_from_slice(&(random.next() as u16).to_le_bytes());
    let first = u16::from_le_bytes([block[0], block[1]]).clamp(0x2000, 0xdfff);
    let second = first - 1 - (random.below(0x1000) as u16);
    let (p, q) = if four { (first, second) } else { (second, first) };
    block[..2].copy_from_slice(&p.to_le_bytes());
    block[2..4].copy_from_slice(&q.to_le_bytes());
    block
}

/// Eight bytes of any value.
fn wide(random: &mut Random) -> [u8; 8] {
    (random.next() << 32 | random.next() & 0xffff_ffff).to_le_bytes()
}

fn bc7(share: u64, random: &mut Random) -> [u8; 8] {
    let mode = match share {
        0..=44 => 6,
        45..=69 => 1,
        70..=79 => 3,
        other => [0, 2, 4, 5, 7][other as usize % 5],
    };
    let mut block = wide(random);
    block[0] = (block[0] & !1) << mode | 1 << mode;
    block
}

/// A flat half is 0; any other has sevenths.
fn signed_values(flat: bool, random: &mut Random) -> [u8; 8] {
    let mut block = desktop_alpha(false, random);
    (block[0], block[1]) = (block[0] & 0x7f, block[1] | 0x80);
    if flat {
        return [0; 8];
    }
    block
}

/// A flat half is opaque; any other has sevenths.
fn desktop_alpha(flat: bool, random: &mut Random) -> [u8; 8] {
    let mut block = random.next().to_le_bytes();
    block[6..].copy_from_slice(&(random.next() as u16).to_le_bytes());
    (block[0], block[1]) = (block[0] | 0x80, block[1] & 0x7f);
    if flat {
        return [0xff, 0xff, 0, 0, 0, 0, 0, 0];
    }
    block
}
