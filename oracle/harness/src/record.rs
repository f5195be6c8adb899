//! The stored list that crates/replay replays: cases with the answers of decoders that nobody here
//! wrote, censuses counted from the bytes, and every size, gap and cut as rows. The program under
//! test is not asked.

use crate::bakings;
use crate::bits;
use crate::cases::{stored_accepted_plan, stored_pitched_plan, stored_plan};
use crate::census;
use crate::expected::expected;
use crate::pictures;
use crate::pieces;
use crate::protocol::{ask, Answer, Case, Pair};
use crate::readers::*;
use crate::rules::verdict;
use crate::second::{for_ours, from_mesa, wide};
use crate::specimens::{block_cases, picture_cases, specimens};
use crate::stored::{List, Row, Whole, OLD};
use crate::swept;
use std::io::{Error, Result};

const TEXT: usize = 1024;
/// The largest picture that is stored, in pixels: published ones are stored from their third level on.
const MOST_PIXELS: usize = 16 * 8;

pub fn record(options: &crate::Options) -> Result<bool> {
    let mut list = List { bytes: text(&options.about)?, lines: String::new() };
    list.group("document 01's specimens", &document(&options.listed)?);
    let mut added = Vec::new();
    let mut shown = Vec::new();
    for reader in PICTURES.into_iter().chain(BLOCKS) {
        let cases = stored_plan(reader, options.seed).into_iter().map(|shape| shape.case());
        let answered = cases.map(|case| (case.clone(), expected(&case, &options.listed).answer));
        let (theirs, ours): (Vec<Pair>, Vec<Pair>) = answered.partition(|(case, _)| is_of_crate(case));
        list.group(&format!("crate: {}", name(reader)), &theirs);
        shown.extend(theirs.iter().find(|(_, due)| due.number == 0).cloned());
        added.extend(ours);
    }
    list.group("document 01's added refusals", &added);
    list.group("censuses counted by hand", &census::specimens());
    for reader in CENSUSES {
        let cases = stored_plan(reader, options.seed).into_iter().map(|shape| shape.case());
        let pairs: Vec<Pair> = cases.map(|case| (case.clone(), census::counted(&case))).collect();
        list.group(&format!("counted: {}", name(reader)), &pairs);
    }
    for reader in PICTURES {
        let cases = stored_pitched_plan(reader, options.seed).into_iter().map(|shape| shape.case());
        let pairs: Vec<Pair> = cases.map(|case| (case.clone(), expected(&case, &options.listed).answer)).collect();
        list.group(&format!("with a pitch: {}", name(reader)), &pairs);
    }
    seconds(options, &mut list)?;
    list.group("blocks of document 01, and of every mode", &by_crate(block_cases(), &options.listed));
    list.wholes("blocks: the largest channel", &largest_channels());
    list.group("pictures of document 01", &by_crate(picture_cases(), &options.listed));
    swept::put(&mut list, &options.listed);
    pieces::put(&mut list, &options.listed);
    bits::put(&mut list, &options.listed);
    bakings::put(&mut list, &options.bakings)?;
    list.wrong("wrong on purpose: a bit of an image", &wrong_images(&shown));
    list.wrong("wrong on purpose: a bit of an answer", &wrong_answers(&shown[0], &added)?);
    list.wrong_rows("wrong on purpose: a bit behind a row", &wrong_rows(&options.listed));
    std::fs::write(format!("{}/stdin", options.folder), &list.bytes)?;
    std::fs::write(format!("{}/stdout", options.folder), &list.lines)?;
    Ok(true)
}

fn by_crate(cases: Vec<Case>, listed: &[String]) -> Vec<Pair> {
    let due = |case: Case| (case.clone(), expected(&case, listed).answer);
    cases.into_iter().map(due).collect()
}

fn largest_channels() -> Vec<Whole> {
    let of = |reader: u32| {
        let (data, image) = (vec![0x80; 8], vec![OLD; 17]);
        let due = Answer { number: 5, block: 0, image: image.clone() };
        Whole { numbers: [reader as u64, u64::MAX, 0, 0, 0, 0], data, image, due }
    };
    [BLOCK_EAC, BLOCK_EAC_SIGNED, BLOCK_BC3_ALPHA].map(of).into()
}

// Whole values of eleven bits as Mesa shows them, without a pitch and with the width as the pitch.
fn stored_wide(reader: u32, options: &crate::Options) -> Result<Vec<Pair>> {
    let cases = stored_accepted_plan(reader, options.seed, false).iter().map(|shape| shape.case()).collect();
    let mut pairs = Vec::new();
    for (case, seen) in ask(&options.mesa, cases)? {
        let due = from_mesa(&case, seen, wide(reader));
        let plain = for_ours(case, wide(reader));
        let pitched = Case { reader: plain.reader + PITCHED, channel: plain.width, ..plain.clone() };
        pairs.extend([(plain, due.clone()), (pitched, due)]);
    }
    Ok(pairs)
}

// Five by five in rows of five: a side, the pitch, the data, the image; each is found before the later ones.
fn wide_refusals() -> Vec<Pair> {
    let mut pairs = Vec::new();
    for reader in WIDE_EACR..=WIDE_EACRG_SIGNED {
        let (bytes, elements) = (4 * block_size(reader), 25 * elements(reader));
        let shapes = [(65_537, 4, bytes - 1, 1), (5, 4, bytes - 1, 12), (5, 5, bytes - 1, 2), (5, 5, bytes, 3)];
        for (width, pitch, bytes, number) in shapes {
            let image = vec![OLD & 0xffff; elements - 1];
            let data = vec![0x5a; bytes];
            let due = Answer { number, block: 0, image: image.clone() };
            let case = Case { reader: reader + PITCHED, channel: pitch, width, height: 5, data, image };
            if number != 12 {
                pairs.push((Case { reader, ..case.clone() }, due.clone()));
            }
            pairs.push((case, due));
        }
    }
    pairs
}

// What the list says of itself, in its first bytes.
fn text(about: &str) -> Result<Vec<u8>> {
    let mut bytes = about.as_bytes().to_vec();
    if bytes.len() > TEXT {
        return Err(Error::other("the text is too long"));
    }
    bytes.resize(TEXT, b'\n');
    Ok(bytes)
}

// The document's own values, which are the crate's too by the listed equations.
fn document(listed: &[String]) -> Result<Vec<Pair>> {
    let pairs: Vec<Pair> = specimens().into_iter().map(|s| (s.case, s.due)).collect();
    if pairs.iter().any(|(case, due)| expected(case, listed).answer != *due) {
        return Err(Error::other("the crate has another answer to a specimen than document 01"));
    }
    Ok(pairs)
}

// Whether the crate itself was asked: it accepts, or refuses a picture with 2 or 3.
fn is_of_crate(case: &Case) -> bool {
    match verdict(case).0 {
        0 => true,
        2 | 3 => !is_block(case.reader),
        _ => false,
    }
}

// Each reader's answer with one bit wrong: in the first, a middle and the last element, and in each byte of one.
fn wrong_images(shown: &[Pair]) -> Vec<Pair> {
    let mut wrong = Vec::new();
    for (turn, (case, due)) in shown.iter().enumerate() {
        let last = due.image.len() - 1;
        for (element, bit) in [(0, turn % 8), (last / 2, 8 + turn % 16), (last, 24 + turn % 8)] {
            let mut due = due.clone();
            due.image[element] ^= 1 << bit;
            wrong.push((case.clone(), due));
        }
    }
    wrong
}

// An acceptance, a refusal, and one that names a block, with one bit wrong in each byte of the number and of the block.
fn wrong_answers(accepted: &Pair, refusals: &[Pair]) -> Result<Vec<Pair>> {
    let refused = |number| refusals.iter().find(|(_, due)| due.number == number);
    let (Some(larger), Some(newer)) = (refused(1), refused(4)) else {
        return Err(Error::other("no refusal 1 or 4 is stored"));
    };
    let mut wrong = Vec::new();
    for (case, due) in [accepted, larger, newer] {
        for byte in 0..4 {
            let (mut number, mut block) = (due.clone(), due.clone());
            number.number ^= 1 << (9 * byte);
            block.block ^= 1 << (9 * byte);
            wrong.extend([(case.clone(), number), (case.clone(), block)]);
        }
    }
    Ok(wrong)
}

// Rows with one bit wrong in the first and the last element, in the number, and in the block that a refusal names.
fn wrong_rows(listed: &[String]) -> Vec<(Row, Answer)> {
    let mut wrong = Vec::new();
    for (reader, plain) in [(ETC1, false), (BC7, false), (STRICT, true), (STRICT, false)] {
        let lengths = (4 * block_size(reader), 27);
        let row = Row::of_reader(reader, 0, (5, 5), lengths, 5, plain);
        let due = expected(&row.case(), listed).answer;
        let (mut first, mut last, mut number, mut block) = (due.clone(), due.clone(), due.clone(), due);
        first.image[0] ^= 1 << 31;
        last.image[26] ^= 1;
        number.number ^= 16;
        block.block ^= 1;
        wrong.extend([first, last, number, block].map(|due| (row.clone(), due)));
    }
    wrong
}

fn seconds(options: &crate::Options, list: &mut List) -> Result<()> {
    let mut cases: Vec<Case> =
        specimens().into_iter().filter(|s| s.shows() && s.case.reader == ETC1).map(|s| s.exact().0).collect();
    cases.extend(stored_accepted_plan(ETC1, options.seed, false).iter().map(|shape| shape.case()));
    list.group("Android: etc1", &ask(&options.android, cases)?);
    // Mesa rounds the signed values of BC4 and BC5 another way (docs/DIFFERENCES.md).
    for reader in FORMATS.into_iter().filter(|&reader| reader != BC4_SIGNED && reader != BC5_SIGNED) {
        let shapes = stored_accepted_plan(reader, options.seed, reader == ETC1);
        let cases = shapes.iter().map(|shape| shape.case()).collect();
        let seen = ask(&options.mesa, cases)?;
        let pairs: Vec<Pair> =
            seen.into_iter().map(|(case, seen)| (case.clone(), from_mesa(&case, seen, reader))).collect();
        list.group(&format!("Mesa: {}", name(reader)), &pairs);
        if is_eac(reader) {
            let asked: Vec<Pair> = stored_wide(reader, options)?;
            list.group(&format!("Mesa, eleven bits: {}", name(reader)), &asked);
        }
    }
    list.group("eleven bits: refusals", &wide_refusals());
    for path in pictures::list(&options.pictures)? {
        for (what, mut levels) in pictures::published_levels(&path)? {
            levels.retain(|(case, _)| case.image.len() <= MOST_PIXELS);
            list.group(&format!("piglit: {what}"), &levels);
        }
    }
    Ok(())
}
