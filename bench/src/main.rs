//! Times the library beside the crate, in one process, turn by turn. See docs/PERFORMANCE.md.
//! Times are the thread's own processor time, so that other work on the machine counts less.
mod android;
mod bake;
mod bands;
mod blocks;
mod clock;
mod formats;
mod gap;
mod older;
mod pieces;
mod plain;
mod sheet;
mod whole;

use blocks::Random;
use formats::{Format, FORMATS};
use std::hint::black_box;
use yalivucu::typed::{self, census_etc2_rgb, census_etc2_rgba1, Picture};

const SIDE: usize = 2048;
const TURNS: usize = 31;
const SEED: u64 = 2026;

type Maker = fn(usize, &[blocks::Half], &mut Random) -> Vec<u8>;

fn main() {
    let mut alike = true;
    for (title, make) in [
        ("random blocks", blocks::random as Maker),
        ("a natural mix", blocks::natural),
    ] {
        println!("{SIDE} x {SIDE}, {title}; milliseconds, medians of {TURNS} turns");
        println!("| format | crate | library | ratio | limit | same pixels |");
        println!("|---|---|---|---|---|---|");
        for format in &FORMATS {
            alike &= compared(format, make);
        }
        android::print(
            SIDE,
            TURNS,
            &make(SIDE * SIDE / 16, &[blocks::Half::Colour], &mut Random::new(SEED)),
        );
        counted(make);
        let halves = [blocks::Half::Alpha, blocks::Half::Colour];
        alike &= sheet::print(SIDE, TURNS, &make(SIDE * SIDE / 16, &halves, &mut Random::new(SEED)));
        for (name, format, halves) in [
            ("RGB", typed::Format::Etc2Rgb, &[blocks::Half::Colour][..]),
            ("RGBA8", typed::Format::Etc2Rgba8, &halves),
        ] {
            let data = make(SIDE * SIDE / 16, halves, &mut Random::new(SEED));
            alike &= pieces::print(name, format, SIDE, TURNS, &data);
        }
        println!();
        alike &= whole::print(make);
        alike &= gap::print(title, make);
        alike &= older::print(title, make);
        alike &= bands::print(title, make);
    }
    println!("filling the image alone: {:.2} ms\n", filled(SIDE));
    alike &= bake::print(&mut Random::new(SEED));
    growth();
    if !alike {
        eprintln!("bench: a row is above its limit, or pixels or bytes differ");
        std::process::exit(1);
    }
}

/// One row: both medians, their ratio, and whether the pixels are the same.
fn compared(format: &Format, make: Maker) -> bool {
    let data = make(SIDE * SIDE / 16, format.halves, &mut Random::new(SEED));
    let (theirs, ours) = alternated(format, &data, SIDE, 1, TURNS);
    let same = format.same(&data, SIDE, SIDE);
    row(format.name, theirs, ours, format.limit, same)
}

/// Prints a row: two times in seconds, the ratio of the second to the first and the most that it may be, and whether they did
/// the same. Whether all is well.
pub fn row(name: &str, first: f64, second: f64, limit: f64, same: bool) -> bool {
    let ratio = second / first;
    let told = if same { "yes" } else { "NO" };
    println!(
        "| {name} | {:.2} | {:.2} | {ratio:.2} | {limit:.2} | {told} |",
        first * 1e3,
        second * 1e3
    );
    if ratio > limit {
        eprintln!("bench: {name}: {ratio:.2} is above {limit:.2}");
    }
    same && ratio <= limit
}

/// A row for each census, which paints nothing and which the crate does not have.
fn counted(make: Maker) {
    let rows: [(&str, blocks::Half, fn(&[u8])); 2] = [
        ("RGB", blocks::Half::Colour, |data| {
            black_box(census_etc2_rgb(data, Picture::new(SIDE, SIDE)).expect("refused"));
        }),
        ("RGBA1", blocks::Half::Punched, |data| {
            black_box(census_etc2_rgba1(data, Picture::new(SIDE, SIDE)).expect("refused"));
        }),
    ];
    for (name, half, count) in rows {
        let data = make(SIDE * SIDE / 16, &[half], &mut Random::new(SEED));
        let turns = (0..TURNS).map(|_| {
            let began = clock::seconds();
            count(black_box(&data));
            clock::seconds() - began
        });
        println!("| census of {name} | | {:.2} | | | |", median(turns.collect()) * 1e3);
    }
}

/// Nanoseconds a pixel, crate and library, by the side of the picture. Small pictures are read
/// one after the other, each with blocks of its own: of a single one the processor would come to
/// foresee every branch.
fn growth() {
    let sides = [16, 256, 1024, 4096];
    println!("how cost grows: nanoseconds a pixel, crate / library, a natural mix");
    println!(
        "| format | {} |",
        sides.map(|side| format!("{side} x {side}")).join(" | ")
    );
    println!("|---|---|---|---|---|");
    for format in &FORMATS {
        let cells = sides.map(|side| {
            let pixels = side * side;
            let pictures = 1_048_576_usize.div_ceil(pixels);
            let data = blocks::natural(pictures * pixels / 16, format.halves, &mut Random::new(SEED));
            let (theirs, ours) = alternated(format, &data, side, pictures, 11);
            let each = 1e9 / pixels as f64;
            format!("{:.2} / {:.2}", theirs * each, ours * each)
        });
        println!("| {} | {} |", format.name, cells.join(" | "));
    }
}

/// The medians of crate and library, in seconds a picture. The data has so many pictures, which
/// a turn reads with the one and then with the other.
fn alternated(format: &Format, data: &[u8], side: usize, pictures: usize, turns: usize) -> (f64, f64) {
    let mut image = vec![0; side * side];
    let each = data.len() / pictures;
    let (theirs, ours) = turn_by_turn(
        turns,
        &mut image,
        |image| {
            for picture in data.chunks(each) {
                (format.given)(black_box(picture), side, side, black_box(&mut *image)).expect("the crate refused");
            }
        },
        |image| {
            for picture in data.chunks(each) {
                (format.library)(black_box(picture), side, side, black_box(&mut *image)).expect("the library refused");
            }
        },
    );
    (theirs / pictures as f64, ours / pictures as f64)
}

/// The medians of two ways of working, in seconds: in each turn the one and then the other, so that
/// a processor whose speed changes serves both alike. The image is cleared before, untimed.
pub fn turn_by_turn(
    turns: usize,
    image: &mut [u32],
    first: impl Fn(&mut [u32]),
    second: impl Fn(&mut [u32]),
) -> (f64, f64) {
    let mut taken = [vec![], vec![]];
    for _ in 0..turns {
        taken[0].push(timed(image, &first));
        taken[1].push(timed(image, &second));
    }
    let [first, second] = taken.map(median);
    (first, second)
}

/// Seconds of work on an image that is cleared first.
fn timed(image: &mut [u32], work: impl Fn(&mut [u32])) -> f64 {
    image.fill(0);
    let began = clock::seconds();
    work(black_box(image));
    clock::seconds() - began
}

fn filled(side: usize) -> f64 {
    let mut image = vec![0; side * side];
    let turns = (0..TURNS).map(|_| timed(&mut image, |image| image.fill(black_box(0xff00_0000))));
    median(turns.collect()) * 1e3
}

pub fn median(mut taken: Vec<f64>) -> f64 {
    taken.sort_by(f64::total_cmp);
    taken[taken.len() / 2]
}
