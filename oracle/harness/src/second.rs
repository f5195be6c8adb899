//! The program under test against decoders that share nothing with it or the crate.

use crate::cases::{accepted_plan, pitched_accepted_plan, Shape};
use crate::pitched::{gathered, pixels, put_back};
use crate::protocol::{ask, Answer, Case, Peer};
use crate::readers::*;
use crate::report::Report;
use crate::rows::EVERY_INDEX;
use crate::rules::{blocks_across, is_new};
use crate::specimens;
use std::io::Result;

/// Mesa in all formats, EAC also by the readers of whole values.
pub fn mesa(options: &crate::Options) -> Result<bool> {
    let mut same = true;
    for reader in FORMATS {
        same &= against(reader, options, &options.mesa, "Mesa", reader)?;
        if is_eac(reader) {
            same &= against(reader, options, &options.mesa, "Mesa, eleven bits,", wide(reader))?;
        }
    }
    Ok(same)
}

/// One format alone, by Mesa, EAC also by the readers of whole values and at every base, and BC4, BC5 and BC7 by Pillow too.
pub fn only(options: &crate::Options) -> Result<bool> {
    let mut same = true;
    for reader in FORMATS.into_iter().filter(|&reader| name(reader) == options.only) {
        same &= against(reader, options, &options.mesa, "Mesa", reader)?;
        if is_eac(reader) {
            same &= against(reader, options, &options.mesa, "Mesa, eleven bits,", wide(reader))?;
            same &= at_every_base(reader, options)?;
        }
        same &= pillow(options)?;
        if reader == BC2 {
            same &= against(reader, options, &options.squish, "squish", reader)?;
        }
        if reader == BC7 {
            same &= crate::desktop::compare(options)?;
        }
    }
    Ok(same)
}

/// Android's libETC1, sums out of range included.
pub fn android(options: &crate::Options) -> Result<bool> {
    against(ETC1, options, &options.android, "Android", ETC1)
}

/// libsquish, which has one rule for BC1, with alpha, and reads BC2 and BC3.
pub fn squish(options: &crate::Options) -> Result<bool> {
    let mut same = true;
    for reader in [BC1A, BC2, BC3] {
        same &= against(reader, options, &options.squish, "squish", reader)?;
    }
    Ok(same)
}

/// Pillow, for BC4, BC5 and BC7. Of a BC7 block without a mode it makes opaque black, so those are left to Mesa; its signed BC5 has another
/// range.
pub fn pillow(options: &crate::Options) -> Result<bool> {
    let mut same = true;
    let asked = |reader: &u32| options.only.is_empty() || options.only == name(*reader);
    for reader in [BC4, BC5, BC7].into_iter().filter(asked) {
        same &= against(reader, options, &options.pillow, "Pillow", reader)?;
    }
    Ok(same)
}

/// Pictures with a pitch, in all formats by Mesa, and in ETC1 by Android too. The other decoder is given
/// the rows without their gaps.
pub fn with_a_pitch(options: &crate::Options) -> Result<bool> {
    let mut same = gapped(ETC1, options, &options.android, "Android")?;
    for reader in FORMATS {
        same &= gapped(reader, options, &options.mesa, "Mesa")?;
    }
    Ok(same)
}

fn gapped(reader: u32, options: &crate::Options, other: &str, label: &str) -> Result<bool> {
    let shapes = pitched_accepted_plan(reader, options.seed);
    let cases: Vec<Case> = shapes.iter().map(Shape::case).collect();
    let aside = if reader == ETC1 { "pixels left to Android" } else { "" };
    let mut report = Report::new(format!("{label} {}, with a pitch", name(reader)), aside, cases.len());
    let seen = ask(other, cases.iter().map(gathered).collect())?;
    for ((dense, seen), (case, got)) in seen.into_iter().zip(ask(&options.program, cases)?) {
        let left = if label == "Android" { Vec::new() } else { wrapped_halves(&dense) };
        let shown = if label == "Android" { seen } else { from_mesa(&dense, seen, reader) };
        let painted = pixels(&case, &got.image);
        let mut shown = rounded(&dense, shown, &painted);
        left.iter().for_each(|&k| shown.image[k] = painted[k]);
        let due = Answer { image: put_back(&case, &shown.image), ..shown };
        report.count(&case, &due, &got, left.len());
    }
    Ok(report.close())
}

/// Document 01's specimens that show something, by Android for ETC1 and by Mesa for the other formats.
pub fn specimens(android: &str, mesa: &str) -> Result<bool> {
    let mut same = true;
    for (program, label) in [(android, "Android"), (mesa, "Mesa")] {
        let shown =
            specimens::specimens().into_iter().filter(|s| s.shows() && (s.case.reader == ETC1) == (label == "Android"));
        let (cases, due): (Vec<_>, Vec<_>) = shown.map(|s| s.exact()).unzip();
        let mut report = Report::new(format!("{label}, document 01's specimens"), "", cases.len());
        for ((case, seen), due) in ask(program, cases)?.into_iter().zip(due) {
            let asked = case.reader;
            report.count(&case, &due, &from_mesa(&case, seen, asked), 0);
        }
        same &= report.close();
    }
    Ok(same)
}

// The same shapes go to both, each as its own reader wants them.
fn against(reader: u32, options: &crate::Options, other: &str, label: &str, asked: u32) -> Result<bool> {
    let shapes = accepted_plan(reader, options.seed, options.blocks);
    let aside = match reader {
        ETC1 => "pixels left to Android",
        BC7 if label == "Pillow" => "pixels left to Mesa",
        _ => "",
    };
    let mut report = Report::new(format!("{label} {}", name(reader)), aside, shapes.len());
    let cases = |shapes: Vec<Shape>| shapes.into_iter().map(|shape| shape.case());
    let mut theirs = Peer::start(other, cases(shapes.clone()))?;
    let mut ours = Peer::start(&options.program, cases(shapes).map(move |case| for_ours(case, asked)))?;
    while let (Some((case, seen)), Some((as_asked, got))) = (theirs.next()?, ours.next()?) {
        let left = match label {
            "Android" => Vec::new(),
            "Pillow" if reader == BC7 => without_a_mode(&case),
            _ => wrapped_halves(&case),
        };
        let due = if label == "Android" { seen } else { from_mesa(&case, seen, asked) };
        let mut due = rounded(&case, due, &got.image);
        left.iter().for_each(|&k| due.image[k] = got.image[k]);
        report.count(&as_asked, &due, &got, left.len());
    }
    ours.finish()?;
    theirs.finish()?;
    Ok(report.close())
}

/// EAC at every base, by Mesa.
pub fn every_base(options: &crate::Options) -> Result<bool> {
    let mut same = true;
    for reader in FORMATS.into_iter().filter(|&reader| is_eac(reader)) {
        same &= at_every_base(reader, options)?;
    }
    Ok(same)
}

// With every multiplier, row and index: as bytes and as whole values.
fn at_every_base(reader: u32, options: &crate::Options) -> Result<bool> {
    let mut same = true;
    for (asked, label) in [(reader, "Mesa"), (wide(reader), "Mesa, eleven bits,")] {
        let cases: Vec<Case> = (0..=255).map(|base| every_channel(reader, base)).collect();
        let mut report = Report::new(format!("{label} {}, every base", name(reader)), "", cases.len());
        let ours = ask(&options.program, cases.iter().cloned().map(|case| for_ours(case, asked)).collect())?;
        for ((case, seen), (as_asked, got)) in ask(&options.mesa, cases)?.into_iter().zip(ours) {
            report.count(&as_asked, &from_mesa(&case, seen, asked), &got, 0);
        }
        same &= report.close();
    }
    Ok(same)
}

// The reader of whole values of a format of EAC.
pub fn wide(reader: u32) -> u32 {
    reader + WIDE_EACR - EACR
}

// A block for each multiplier and row; of two halves the second has what the first has not had.
fn every_channel(reader: u32, base: u8) -> Case {
    let half = |second: u8| {
        let index = EVERY_INDEX[second as usize % 2].to_be_bytes();
        [base, second, index[2], index[3], index[4], index[5], index[6], index[7]]
    };
    let blocks =
        (0..=255).flat_map(|second: u8| [half(second), half(!second)].concat().into_iter().take(block_size(reader)));
    Case { reader, channel: 0, width: 512, height: 8, data: blocks.collect(), image: vec![0; 512 * 8] }
}

pub fn for_ours(mut case: Case, asked: u32) -> Case {
    if asked == WIDE_EACRG || asked == WIDE_EACRG_SIGNED {
        case.image.extend_from_within(..);
    }
    case.reader = asked;
    case
}

/// Mesa's answer in the form of the reader asked.
pub fn from_mesa(case: &Case, seen: Answer, asked: u32) -> Answer {
    let image = match case.reader {
        reader if !is_eac(reader) => seen.image,
        reader if asked == reader => seen.image.iter().map(|&both| pixel(reader, both)).collect(),
        reader => seen.image.iter().flat_map(|&both| values(reader, both)).collect(),
    };
    Answer { image, ..seen }
}

/// Mesa rounds the signed values of BC4 and BC5 towards zero and takes -128 as it is, so it may be one from ours; and it has -127 above -128,
/// which the Khronos text leaves open. There ours are taken as answered.
pub fn rounded(case: &Case, mut seen: Answer, ours: &[u32]) -> Answer {
    if half(case.reader, false) != Half::Rgtc || !is_signed(case.reader) {
        return seen;
    }
    let (width, size) = (case.width as usize, block_size(case.reader));
    for (k, (theirs, &ours)) in seen.image.iter_mut().zip(ours).enumerate() {
        let at = size * (k / width / 4 * blocks_across(case.width) + k % width / 4);
        let open = case.data[at..at + size].chunks(8).any(|half| half[..2] == [0x81, 0x80]);
        let near = theirs.to_le_bytes().into_iter().zip(ours.to_le_bytes()).all(|(a, b)| a.abs_diff(b) <= 1);
        if open || near {
            *theirs = ours;
        }
    }
    seen
}

// Of ETC1 blocks with a sum out of range Mesa does not wrap the second base, so their
// second halves are taken as answered: Android's reading is held to those.
pub fn wrapped_halves(case: &Case) -> Vec<usize> {
    if case.reader != ETC1 {
        return Vec::new();
    }
    let width = case.width as usize;
    let is_left = |&k: &usize| {
        let (x, y) = (k % width, k / width);
        let at = 8 * (y / 4 * blocks_across(case.width) + x / 4);
        let block = &case.data[at..at + 8];
        let across = if block[3] & 1 == 0 { x } else { y };
        is_new(block) && across % 4 >= 2
    };
    (0..case.image.len()).filter(is_left).collect()
}

// The pixels of BC7 blocks whose first byte is 0.
fn without_a_mode(case: &Case) -> Vec<usize> {
    let width = case.width as usize;
    let is_none = |&k: &usize| case.data[16 * (k / width / 4 * blocks_across(case.width) + k % width / 4)] == 0;
    (0..case.image.len()).filter(is_none).collect()
}

// Mesa's sixteen bits of red and green, back to the eleven that they repeat.
fn eleven(reader: u32, both: u32) -> [i32; 2] {
    let signed = is_signed(reader);
    [both as u16, (both >> 16) as u16].map(|bits| {
        let sixteen = if signed { bits as i16 as i32 } else { bits as i32 };
        let value = sixteen.abs() / 32;
        let repeated = value * 32 + value / if signed { 32 } else { 64 };
        assert_eq!(repeated, sixteen.abs(), "Mesa gave sixteen bits that repeat no eleven");
        value * sixteen.signum()
    })
}

// Bytes as document 01 takes them from the eleven bits.
fn pixel(reader: u32, both: u32) -> u32 {
    let least = if is_signed(reader) { -1023 } else { 0 };
    let bytes = eleven(reader, both).map(|value| (value - least) as u32 / 8);
    let green = if block_size(reader) == 16 { bytes[1] } else { 0 };
    0xff00_0000 | bytes[0] << 16 | green << 8
}

// The whole values, as elements of sixteen bits.
fn values(reader: u32, both: u32) -> Vec<u32> {
    let channels = block_size(reader) / 8;
    eleven(reader, both).iter().take(channels).map(|&value| value as u16 as u32).collect()
}
