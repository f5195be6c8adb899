//! EAC's readers of whole values beside its readers of bytes: the same blocks into 16-bit numbers and into pixels.
use crate::blocks::{Half, Random};
use crate::{clock, median, Maker, SEED, SIDE, TURNS};
use std::hint::black_box;
use yalivucu::typed::{self, Format, Picture, Refusal};

/// A whole value takes no more than this much of a byte's time.
const LIMIT: f64 = 1.25;

/// A row for each of the four, and whether the bytes are the values divided by 8 and no ratio is above the limit.
pub fn print(make: Maker) -> bool {
    println!("| EAC | bytes | whole values | ratio | limit | same bytes |");
    println!("|---|---|---|---|---|---|");
    let red = &[Half::Channel][..];
    let both = &[Half::Channel, Half::Channel][..];
    let mut alike = row("R", Format::EacR, red, 0, typed::decode_eacr11, make);
    alike &= row(
        "R signed",
        Format::EacRSigned,
        red,
        1023,
        typed::decode_eacr11_signed,
        make,
    );
    alike &= row("RG", Format::EacRg, both, 0, typed::decode_eacrg11, make);
    alike &= row(
        "RG signed",
        Format::EacRgSigned,
        both,
        1023,
        typed::decode_eacrg11_signed,
        make,
    );
    println!();
    alike
}

fn row<T: Copy + Default + Into<i32>>(
    name: &str,
    format: Format,
    halves: &[Half],
    added: i32,
    whole: fn(&[u8], Picture, &mut [T]) -> Result<(), Refusal>,
    make: Maker,
) -> bool {
    let data = make(SIDE * SIDE / 16, halves, &mut Random::new(SEED));
    let picture = Picture::new(SIDE, SIDE);
    let mut pixels = vec![0; SIDE * SIDE];
    let mut values = vec![T::default(); SIDE * SIDE * halves.len()];
    let (mut bytes, mut wholes) = (Vec::new(), Vec::new());
    for _ in 0..TURNS {
        pixels.fill(0);
        values.fill(T::default());
        let began = clock::seconds();
        typed::read(format, black_box(&data), picture, black_box(&mut pixels)).expect("the library refused");
        let between = clock::seconds();
        whole(black_box(&data), picture, black_box(&mut values)).expect("the library refused");
        bytes.push(between - began);
        wholes.push(clock::seconds() - between);
    }
    let shown = |pixel: u32, lane: usize| (pixel >> (16 - 8 * lane)) as i32 & 255;
    let same = values
        .chunks(halves.len())
        .zip(&pixels)
        .all(|(lanes, pixel)| (0..lanes.len()).all(|c| (lanes[c].into() + added) / 8 == shown(*pixel, c)));
    crate::row(name, median(bytes), median(wholes), LIMIT, same)
}
