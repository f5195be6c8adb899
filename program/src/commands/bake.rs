//! `bake`: a PNG to an ETC1 file.
use super::{deliver, threads};
use crate::args::Bake;
use crate::failure::{number, Failure};
use crate::input::identities;
use crate::names::shown;
use crate::output::Rules;
use crate::progress::Progress;
use crate::reference::Reference;
use crate::report::{self, Outcome};
use crate::{work, End};
use yalivucu::typed::{bake_etc1_block, read_block, Format, Refusal};

const SIZE: usize = 8;
/// From so many rows of blocks on, progress is shown.
const SHOWN_FROM: usize = 64;

pub fn run(asked: &Bake) -> Result<Outcome, End> {
    let rules = Rules { reads: identities([&asked.file]), force: asked.force };
    Ok(baked(asked, &rules).or_else(|why| {
        report::refuse(&asked.file, &why);
        Ok::<_, Failure>(Outcome::Refused)
    })?)
}

fn baked(asked: &Bake, rules: &Rules) -> Result<Outcome, Failure> {
    let picture = Reference::read(&asked.file)?;
    if let Some(at) = picture.pixels.iter().position(|pixel| pixel >> 24 != 255) {
        let (column, row) = (at % picture.width, at / picture.width);
        let sentence = format!("ETC1 has no alpha, and the pixel at column {column} and row {row} is not opaque.");
        return Err(Failure::new(number::WRONG_PICTURE, sentence));
    }
    let (across, down) = (picture.width.div_ceil(4), picture.height.div_ceil(4));
    let mut file = header(&picture, across * down * SIZE);
    let progress = Progress::new(down, SHOWN_FROM, "rows of blocks");
    let row = |row: usize| -> Result<Vec<u8>, Refusal> {
        let blocks = (row * across..(row + 1) * across).map(|block| best(&picture.tile(block)));
        Ok(blocks.collect::<Result<Vec<_>, _>>()?.concat())
    };
    work::in_order(down, threads(asked.threads), row, |_, blocks| {
        file.extend(blocks?);
        progress.tick();
        Ok::<(), Refusal>(())
    })?;
    let line = format!(
        "{}: {} x {}, {} blocks of ETC1, to {}",
        shown(&asked.file),
        picture.width,
        picture.height,
        across * down,
        shown(&asked.out)
    );
    deliver(&asked.out, rules, &file, &line)
}

/// The header of a KTX 1 file with one level of ETC1, and the size of that.
fn header(picture: &Reference, bytes: usize) -> Vec<u8> {
    const ETC1: u32 = 0x8D64;
    const RGB: u32 = 0x1907;
    let (width, height) = (picture.width as u32, picture.height as u32);
    let words = [0x0403_0201, 0, 1, 0, ETC1, RGB, width, height, 0, 0, 1, 1, 0, bytes as u32];
    let mut header = b"\xABKTX 11\xBB\r\n\x1A\n".to_vec();
    header.extend(words.iter().flat_map(|word| word.to_le_bytes()));
    header
}

/// The better of the two ways to cut a block: by the baker's own measure, and where both are as good the first.
fn best(tile: &[u32; 16]) -> Result<[u8; SIZE], Refusal> {
    let mut found = None;
    for flip in [false, true] {
        let is_second = |k: usize| if flip { k / 4 >= 2 } else { k % 4 >= 2 };
        let mut block = [0; SIZE];
        let first = base(tile, |k| !is_second(k));
        let second = base(tile, is_second);
        bake_etc1_block(first, second, flip, tile, &mut block)?;
        let mut shown = [0; 16];
        read_block(Format::Etc1, &block, &mut shown)?;
        let far = distance(tile, &shown);
        if found.is_none_or(|(least, _)| far < least) {
            found = Some((far, block));
        }
    }
    Ok(found.map_or([0; SIZE], |(_, block)| block))
}

/// The average of the eight pixels of a half, in four bits a channel.
fn base(tile: &[u32; 16], is_in: impl Fn(usize) -> bool) -> [u8; 3] {
    [16, 8, 0].map(|shift| {
        let sum: u32 = (0..16).filter(|k| is_in(*k)).map(|k| tile[k] >> shift & 255).sum();
        // sum / 8 * 15 / 255, to the nearest
        ((sum * 15 + 1020) / 2040) as u8
    })
}

/// The sum of absolute differences in red, green and blue.
fn distance(tile: &[u32; 16], shown: &[u32; 16]) -> u32 {
    let channels = |pixel: u32| [pixel >> 16 & 255, pixel >> 8 & 255, pixel & 255];
    let pairs = tile.iter().zip(shown);
    pairs.flat_map(|(a, b)| channels(*a).into_iter().zip(channels(*b))).map(|(a, b)| a.abs_diff(b)).sum()
}
