//! An RGBA8 picture as a sheet: the walk over its records, and then the same reader.
use std::hint::black_box;
use yalivucu::typed::{read, read_sheet, write_sheet, Format, Picture};

/// One row, and whether the pixels are those of the plain reader.
pub fn print(side: usize, turns: usize, blocks: &[u8]) -> bool {
    let picture = Picture::new(side, side);
    let mut sheet = vec![0; 21 + blocks.len()];
    write_sheet(Format::Etc2Rgba8, picture, blocks, &mut sheet).expect("the writer refused");
    let mut plain = vec![0; side * side];
    read(Format::Etc2Rgba8, blocks, picture, &mut plain).expect("the library refused");
    let mut image = vec![0; side * side];
    let taken = (0..turns).map(|_| {
        crate::timed(&mut image, |image| {
            read_sheet(black_box(&sheet), black_box(image)).expect("the library refused");
        })
    });
    let taken = crate::median(taken.collect());
    let same = image == plain;
    let told = if same { "yes" } else { "NO" };
    println!("| RGBA8, as a sheet | | {:.2} | | | {told} |", taken * 1e3);
    same
}
