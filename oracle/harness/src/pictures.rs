//! Published test pictures (KTX 1 files) with their published results.

use crate::protocol::{ask, Answer, Case, Pair};
use crate::readers::*;
use crate::report::Report;
use std::io::{Error, Result};

struct Ktx {
    internal: u32,
    format: u32,
    width: u32,
    height: u32,
    levels: Vec<Vec<u8>>,
}

fn read(path: &str) -> Result<Ktx> {
    let bytes = std::fs::read(path)?;
    parse(&bytes).ok_or_else(|| Error::other(format!("{path} is no little-endian KTX 1 file of one picture")))
}

// The head is twelve bytes of name and thirteen words; then each level, its length
// before it, padded to four bytes.
fn parse(bytes: &[u8]) -> Option<Ktx> {
    let word = |at: usize| Some(u32::from_le_bytes(bytes.get(at..at + 4)?.try_into().ok()?));
    if !bytes.starts_with(b"\xabKTX 11\xbb\r\n\x1a\n") || word(12)? != 0x0403_0201 {
        return None;
    }
    let mut at = 64 + word(60)? as usize;
    let mut levels = Vec::new();
    for _ in 0..word(56)?.max(1) {
        let length = word(at)? as usize;
        levels.push(bytes.get(at + 4..at + 4 + length)?.to_vec());
        at += 4 + length.next_multiple_of(4);
    }
    Some(Ktx { internal: word(28)?, format: word(24)?, width: word(36)?, height: word(40)?, levels })
}

/// The readers that a compressed file is for. An sRGB format has the same blocks and
/// bytes; what an encoder of ETC1 wrote is also RGB, and in range.
fn readers_of(internal: u32) -> &'static [u32] {
    match internal {
        0x8d64 => &[ETC1, STRICT, RGB],
        0x9274 | 0x9275 => &[RGB],
        0x9276 | 0x9277 => &[RGBA1],
        0x9278 | 0x9279 => &[RGBA8],
        0x9270 => &[EACR],
        0x9271 => &[EACR_SIGNED],
        0x9272 => &[EACRG],
        0x9273 => &[EACRG_SIGNED],
        _ => &[],
    }
}

// The published results are RGB or RGBA bytes. A format of one channel is shown there as
// grey, so only its red is taken.
fn published(reader: u32, ktx: &Ktx, level: &[u8]) -> Vec<u32> {
    let step = if ktx.format == 0x1908 { 4 } else { 3 };
    let word = |p: &[u8]| {
        let alpha = p.get(3).copied().unwrap_or(255);
        let (green, blue) = if reader == EACR || reader == EACR_SIGNED { (0, 0) } else { (p[1], p[2]) };
        u32::from_be_bytes([alpha, p[0], green, blue])
    };
    level.chunks_exact(step).map(word).collect()
}

fn level_case(reader: u32, ktx: &Ktx, level: usize) -> Case {
    let (width, height) = ((ktx.width >> level).max(1), (ktx.height >> level).max(1));
    let data = ktx.levels[level].clone();
    Case { reader, channel: 0, width, height, data, image: vec![0x1111_1111; (width * height) as usize] }
}

/// The compressed files of a folder, in the order of their names.
pub fn list(folder: &str) -> Result<Vec<String>> {
    let mut paths = Vec::new();
    for entry in std::fs::read_dir(folder)? {
        let path = entry?.path().to_string_lossy().into_owned();
        if path.contains("waffles-compressed-") {
            paths.push(path);
        }
    }
    paths.sort();
    Ok(paths)
}

fn short(path: &str) -> &str {
    let file = path.rsplit('/').next().unwrap_or(path);
    file.trim_start_matches("waffles-compressed-").trim_end_matches("-64x32-miptree.ktx")
}

/// The levels of a compressed file for each reader that it is for, with the published results.
pub fn published_levels(path: &str) -> Result<Vec<(String, Vec<Pair>)>> {
    let result =
        path.replace("waffles-compressed", "waffles-decompressed").replace("-decompressed-etc1", "-decompressed-rgb");
    let (ktx, shown) = (read(path)?, read(&result)?);
    let levels = |&reader: &u32| {
        let due = |level: &Vec<u8>| Answer { number: 0, block: 0, image: published(reader, &shown, level) };
        let cases = (0..ktx.levels.len()).map(|level| level_case(reader, &ktx, level));
        (format!("{} of {}", name(reader), short(path)), cases.zip(shown.levels.iter().map(due)).collect())
    };
    Ok(readers_of(ktx.internal).iter().map(levels).collect())
}

/// Each level of a compressed file, against the same level of its published result.
pub fn compare(path: &str, program: &str) -> Result<bool> {
    let mut same = true;
    for (what, levels) in published_levels(path)? {
        let mut report = Report::new(what, "", levels.len());
        let (cases, due): (Vec<Case>, Vec<Answer>) = levels.into_iter().unzip();
        for ((case, got), due) in ask(program, cases)?.into_iter().zip(due) {
            report.count(&case, &due, &got, 0);
        }
        same &= report.close();
    }
    Ok(same)
}
