//! `compare`: the blocks of an ETC1 file beside the picture that they were baked from.
use crate::args::Compare;
use crate::failure::{number, Failure};
use crate::input;
use crate::names::shown;
use crate::reference::Reference;
use crate::report::{self, Outcome};
use crate::texture::{Reading, Texture};
use crate::End;
use yalivucu::typed::{check_etc1_block, read_block, Format, Refusal};

/// The largest difference of two bytes.
const LARGEST: u32 = 255;
/// Bytes of a block of ETC1.
const SIZE: usize = 8;

/// What came of all blocks.
#[derive(Default)]
struct Found {
    outside: usize,
    first: Option<usize>,
    /// The largest difference of a block that the checker can accept at all.
    largest: u32,
    /// Blocks of a newer kind, which it accepts with no tolerance.
    newer: usize,
}

pub fn run(asked: &Compare) -> Result<Outcome, End> {
    let reading = asked.reading.reading()?;
    let reference = match Reference::read(&asked.reference) {
        Ok(reference) => reference,
        Err(why) => {
            report::refuse(&asked.reference, &why);
            return Ok(Outcome::Refused);
        }
    };
    Ok(compared(asked, &reading, &reference).or_else(|why| {
        report::refuse(&asked.file, &why);
        Ok::<_, Failure>(Outcome::Refused)
    })?)
}

fn compared(asked: &Compare, reading: &Reading, reference: &Reference) -> Result<Outcome, Failure> {
    let input = input::read(&asked.file, reading.wanted())?;
    let texture = reading.textures(&input, asked.reading.levels())?[0];
    if texture.kind.format != Format::Etc1 {
        let sentence = format!("it is {}, and blocks of ETC1 are compared.", texture.kind.title);
        return Err(Failure::new(number::WRONG_FORMAT, sentence));
    }
    if (texture.width, texture.height) != (reference.width, reference.height) {
        let sentence = format!(
            "it is {} x {}, and {} is {} x {}.",
            texture.width,
            texture.height,
            shown(&asked.reference),
            reference.width,
            reference.height
        );
        return Err(Failure::new(number::WRONG_PICTURE, sentence));
    }
    let mut found = Found::default();
    for (block, bytes) in texture.data.chunks_exact(SIZE).enumerate() {
        found.look(block, bytes, &tile(&texture, reference, block, bytes)?, u32::from(asked.tolerance))?;
    }
    report::say(&line(asked, &texture, &found))?;
    Ok(if found.outside == 0 { Outcome::Done } else { Outcome::Refused })
}

/// The pixels of the reference; outside the picture, where nobody sees them, the block's own.
fn tile(texture: &Texture, reference: &Reference, block: usize, bytes: &[u8]) -> Result<[u32; 16], Refusal> {
    let mut own = [0; 16];
    read_block(Format::Etc1, bytes, &mut own)?;
    let (left, top) = texture.pixel_of(block);
    let tile = reference.tile(block);
    Ok(std::array::from_fn(|k| {
        let is_inside = left + k % 4 < texture.width && top + k / 4 < texture.height;
        if is_inside {
            tile[k]
        } else {
            own[k]
        }
    }))
}

impl Found {
    fn look(&mut self, block: usize, bytes: &[u8], tile: &[u32], tolerance: u32) -> Result<(), Refusal> {
        if !check_etc1_block(bytes, tile, tolerance)? {
            self.outside += 1;
            self.first.get_or_insert(block);
        }
        if check_etc1_block(bytes, tile, self.largest)? {
            return Ok(());
        }
        if !check_etc1_block(bytes, tile, LARGEST)? {
            self.newer += 1;
            return Ok(());
        }
        // the checker accepts a block exactly for tolerances from its largest difference on
        let (mut below, mut accepted) = (self.largest, LARGEST);
        while accepted - below > 1 {
            let middle = (below + accepted) / 2;
            if check_etc1_block(bytes, tile, middle)? {
                accepted = middle;
            } else {
                below = middle;
            }
        }
        self.largest = accepted;
        Ok(())
    }
}

fn line(asked: &Compare, texture: &Texture, found: &Found) -> String {
    let mut line = format!(
        "{}: level {} of {}: {} of {} blocks are outside tolerance {}",
        shown(&asked.file),
        texture.level,
        texture.level_count,
        found.outside,
        texture.data.len() / SIZE,
        asked.tolerance
    );
    if let Some(block) = found.first {
        let (column, row) = texture.pixel_of(block);
        line += &format!(", the first of them block {block}, at pixel column {column} and row {row}");
    }
    line += &format!("; the largest difference is {}", found.largest);
    if found.newer > 0 {
        line += &format!("; {} blocks are of a newer kind, and accepted with no tolerance", found.newer);
    }
    line
}
