//! Pictures that arrive in pieces of 64 KiB, beside the plain reader of the same bytes, turn by turn.
use std::hint::black_box;
use yalivucu::typed::{read, Format, Picture, Pieces};

const PIECE: usize = 65536;

/// The most of the plain reader's time that pieces may take.
const LIMIT: f64 = 1.25;

/// One row, and whether the pixels are those of the plain reader. The pieces begin seven bytes into a block, so that each has a
/// block that began in the one before. In the place of the crate's time stands the plain reader's.
pub fn print(name: &str, format: Format, side: usize, turns: usize, blocks: &[u8]) -> bool {
    let picture = Picture::new(side, side);
    let mut plain = vec![0; side * side];
    let mut image = vec![0; side * side];
    let mut taken = [vec![], vec![]];
    for _ in 0..turns {
        taken[0].push(crate::timed(&mut plain, |image| {
            read(format, black_box(blocks), picture, black_box(image)).expect("the library refused");
        }));
        taken[1].push(crate::timed(&mut image, |image| {
            let mut pieces = Pieces::start(format, picture, image).expect("the library refused");
            let (first, rest) = blocks.split_at(7);
            for piece in std::iter::once(first).chain(rest.chunks(PIECE)) {
                pieces
                    .take(black_box(piece), black_box(&mut *image))
                    .expect("the library refused");
            }
            pieces.end().expect("the library refused");
        }));
    }
    let [whole, pieces] = taken.map(crate::median);
    let name = format!("{name}, in pieces of 64 KiB; beside the plain reader");
    crate::row(&name, whole, pieces, LIMIT, image == plain)
}
