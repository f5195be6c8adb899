//! The readers with a pitch: the same pictures into rows with a gap.
use crate::blocks::Random;
use crate::formats::{Format, Pitched, FORMATS};
use crate::{turn_by_turn, Maker, SEED, SIDE, TURNS};
use std::hint::black_box;

/// The elements between two rows.
const GAP: usize = 16;

/// The most of the time without a gap that one with a gap may take.
const LIMIT: f64 = 1.25;
const STOOD: u32 = 0x1111_1111;

/// A table of the readers without and with a gap, and whether all pixels are the same and the gaps as they were.
pub fn print(title: &str, make: Maker) -> bool {
    println!("{SIDE} x {SIDE}, {title}; milliseconds, medians of {TURNS} turns");
    println!(
        "| format | pitch {SIDE} | pitch {} | ratio | limit | same pixels, gaps kept |",
        SIDE + GAP
    );
    println!("|---|---|---|---|---|---|");
    let mut alike = true;
    for format in &FORMATS {
        if let Some(pitched) = format.pitched {
            alike &= row(format, pitched, make);
        }
    }
    println!();
    alike
}

fn row(format: &Format, pitched: Pitched, make: Maker) -> bool {
    let data = make(SIDE * SIDE / 16, format.halves, &mut Random::new(SEED));
    let mut image = vec![0; (SIDE + GAP) * SIDE];
    let read = |image: &mut [u32], pitch: usize| {
        pitched(black_box(&data), SIDE, SIDE, pitch, black_box(image)).expect("the library refused");
    };
    let (plain, gapped) = turn_by_turn(
        TURNS,
        &mut image,
        |image| read(image, SIDE),
        |image| read(image, SIDE + GAP),
    );
    crate::row(
        format.name,
        plain,
        gapped,
        LIMIT,
        same(format, pitched, &data, &mut image),
    )
}

fn same(format: &Format, pitched: Pitched, data: &[u8], image: &mut [u32]) -> bool {
    let mut plain = vec![0; SIDE * SIDE];
    (format.library)(data, SIDE, SIDE, &mut plain).expect("the library refused");
    image.fill(STOOD);
    pitched(data, SIDE, SIDE, SIDE + GAP, image).expect("the library refused");
    let rows = plain.chunks(SIDE).zip(image.chunks(SIDE + GAP));
    rows.into_iter()
        .all(|(row, gapped)| *row == gapped[..SIDE] && gapped[SIDE..].iter().all(|k| *k == STOOD))
}
