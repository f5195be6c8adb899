//! Pictures on two processors, in two bands, beside the plain reader on one, turn by turn. These are times by the clock on the wall.
use crate::blocks::{Half, Random};
use crate::{median, row, Maker, SEED, SIDE, TURNS};
use std::hint::black_box;
use std::time::Instant;
use yalivucu::typed::{read, read_in_bands, read_strict, read_strict_in_bands, Format, Picture, Refusal};

/// "On two processors at least 1.8 times as fast": the most of the plain reader's time.
const LIMIT: f64 = 1.0 / 1.8;

type Plain = fn(&[u8], Picture, &mut [u32]) -> Result<(), Refusal>;
type InBands = fn(&[u8], Picture, &mut [u32], &[usize]) -> Result<(), Refusal>;

/// A table of readers on one processor and on two, and whether they paint the same. Nothing where there is one processor.
pub fn print(title: &str, make: Maker) -> bool {
    if std::thread::available_parallelism().map_or(1, |n| n.get()) < 2 {
        println!("no pictures in bands: there is one processor\n");
        return true;
    }
    let rows: [(&str, &[Half], Plain, InBands); 4] = [
        (
            "RGB",
            &[Half::Colour],
            |data, picture, image| read(Format::Etc2Rgb, data, picture, image),
            |data, picture, image, rows| read_in_bands(Format::Etc2Rgb, data, picture, image, rows),
        ),
        (
            "RGBA8",
            &[Half::Alpha, Half::Colour],
            |data, picture, image| read(Format::Etc2Rgba8, data, picture, image),
            |data, picture, image, rows| read_in_bands(Format::Etc2Rgba8, data, picture, image, rows),
        ),
        (
            "EAC RG",
            &[Half::Channel, Half::Channel],
            |data, picture, image| read(Format::EacRg, data, picture, image),
            |data, picture, image, rows| read_in_bands(Format::EacRg, data, picture, image, rows),
        ),
        ("ETC1, strict", &[Half::InRange], read_strict, read_strict_in_bands),
    ];
    println!("{SIDE} x {SIDE}, {title}, in two bands; milliseconds by the clock, medians of {TURNS} turns");
    println!("| format | one processor | two | ratio | limit | same pixels |");
    println!("|---|---|---|---|---|---|");
    let mut alike = true;
    for (name, halves, plain, bands) in rows {
        let data = make(SIDE * SIDE / 16, halves, &mut Random::new(SEED));
        alike &= compared(name, &data, plain, bands);
    }
    println!();
    alike
}

fn compared(name: &str, data: &[u8], plain: Plain, bands: InBands) -> bool {
    let picture = Picture::new(SIDE, SIDE);
    let cuts = picture.bands(2);
    let mut images = [vec![0; SIDE * SIDE], vec![0; SIDE * SIDE]];
    let mut taken = [vec![], vec![]];
    for _ in 0..TURNS {
        taken[0].push(timed(&mut images[0], |image| plain(black_box(data), picture, image)));
        taken[1].push(timed(&mut images[1], |image| {
            bands(black_box(data), picture, image, &cuts)
        }));
    }
    let [one, two] = taken.map(median);
    row(name, one, two, LIMIT, images[0] == images[1])
}

/// Seconds by the clock of a reader on an image that is cleared first.
fn timed(image: &mut [u32], reader: impl Fn(&mut [u32]) -> Result<(), Refusal>) -> f64 {
    image.fill(0);
    let began = Instant::now();
    reader(black_box(image)).expect("the library refused");
    began.elapsed().as_secs_f64()
}
