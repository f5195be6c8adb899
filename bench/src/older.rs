//! What an older viewer shows wrong, beside the newer plain reader: blocks of a newer kind are read by both rules.
use crate::blocks::{Half, Random};
use crate::{turn_by_turn, Maker, SEED, SIDE, TURNS};
use std::hint::black_box;
use yalivucu::typed::{older_etc1, older_rgb, read, Format, OlderCounts, Picture, Refusal};

/// The most of the newer reader's time that a count may take, of a mix of blocks, and where every block is of a newer kind.
const LIMIT: f64 = 2.5;
const LIMIT_ALL: f64 = 4.0;

struct Pair {
    name: &'static str,
    old: Format,
    new: Format,
    half: Half,
    count: fn(&[u8], Picture) -> Result<OlderCounts, Refusal>,
    /// Makes the block of that number one of a newer kind.
    newer: fn(&mut [u8], usize),
}

const PAIRS: [Pair; 2] = [
    Pair {
        name: "ETC1 for RGB",
        old: Format::Etc1,
        new: Format::Etc2Rgb,
        half: Half::Colour,
        count: older_etc1,
        newer: |block, number| {
            block[..number % 3].fill(0x80);
            block[number % 3] = 0x04;
            block[3] |= 2;
        },
    },
    Pair {
        name: "RGB for RGBA1",
        old: Format::Etc2Rgb,
        new: Format::Etc2Rgba1,
        half: Half::Punched,
        count: older_rgb,
        newer: |block, _| block[3] &= !2,
    },
];

/// A table of the newer readers and of the counts, and whether each count is that of the pictures.
pub fn print(title: &str, make: Maker) -> bool {
    println!("{SIDE} x {SIDE}, {title}; milliseconds, medians of {TURNS} turns");
    println!("| an older viewer | newer reader | count | ratio | limit | as the pictures differ |");
    println!("|---|---|---|---|---|---|");
    let mut alike = true;
    for pair in &PAIRS {
        let mut data = make(SIDE * SIDE / 16, &[pair.half], &mut Random::new(SEED));
        alike &= row(pair, pair.name, &data, LIMIT);
        for (number, block) in data.chunks_mut(8).enumerate() {
            (pair.newer)(block, number);
        }
        alike &= row(pair, &format!("{}, every block newer", pair.name), &data, LIMIT_ALL);
    }
    println!();
    alike
}

fn painted(format: Format, data: &[u8], image: &mut [u32]) {
    read(format, black_box(data), Picture::new(SIDE, SIDE), black_box(image)).expect("the library refused");
}

fn counted(pair: &Pair, data: &[u8]) -> OlderCounts {
    (pair.count)(black_box(data), Picture::new(SIDE, SIDE)).expect("the library refused")
}

fn row(pair: &Pair, name: &str, data: &[u8], limit: f64) -> bool {
    let (mut old, mut new) = (vec![0; SIDE * SIDE], vec![0; SIDE * SIDE]);
    let (plain, count) = turn_by_turn(
        TURNS,
        &mut new,
        |image| painted(pair.new, data, image),
        |_| {
            black_box(counted(pair, data));
        },
    );
    painted(pair.old, data, &mut old);
    painted(pair.new, data, &mut new);
    let wrong = old.iter().zip(&new).filter(|(old, new)| old != new).count();
    crate::row(name, plain, count, limit, counted(pair, data).pixels == wrong)
}
