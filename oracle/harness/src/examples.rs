//! The inputs that docs/DIFFERENCES.md names, each with what the other decoder shows there
//! and what is due: a statement of that page that is not so counts as a difference.

use crate::expected::crate_answer;
use crate::protocol::{ask, Answer, Case};
use crate::readers::*;
use crate::report::Report;
use crate::second::from_mesa;
use crate::specimens::LOWEST;
use std::io::Result;
use std::panic::{catch_unwind, set_hook, take_hook};

/// A picture of one block: reader, side, bytes, element, the other's pixel, and the pixel due. Of a block reader the
/// image has 17 elements, and the channel is 3.
type Example = (u32, u32, &'static [u8], usize, u32, u32);

/// A red sum of 32.
const WRAPPED: [u8; 8] = [0xf9, 0, 0, 2, 0, 0, 0, 0];

const OF_CRATE: [Example; 25] = [
    (RGBA1, 4, &[0x80, 0, 0, 0, 0xff, 0xff, 0, 0], 0, 0x0084_0000, 0),
    (RGBA1, 1, &[0, 0, 0x08, 0, 0, 1, 0, 0], 0, 0x0000_0008, 0),
    (RGBA1, 1, &[0x04, 0, 0xf0, 0, 0, 1, 0, 0], 0, 0x00ff_0000, 0),
    (RGBA1, 1, &[0, 0x04, 0, 0, 0, 1, 0, 0], 0, 0x0006_0606, 0),
    (EACR, 4, &[0x80, 0x10, 0, 0, 0, 0, 0, 0], 7, 0xff77_0000, 0xff7d_0000),
    (EACR, 4, &[0x80, 0x10, 0, 0, 0, 0, 0, 0], 14, 0xff7a_0000, 0xff7d_0000),
    (EACR, 4, &[0x80, 0x00, 0, 0, 0, 0, 0, 0], 7, 0xff7f_0000, 0xff80_0000),
    (EACR_SIGNED, 4, &[0x00, 0x10, 0, 0, 0, 0, 0, 0], 14, 0xff79_0000, 0xff7c_0000),
    (EACR, 1, &[0x80, 0x10, 0, 0, 0, 0x20, 0, 0], 0, 0xff7a_0000, 0xff7d_0000),
    (EACR, 1, &[0x80, 0x10, 0x20, 0, 0, 0, 0, 0], 0, 0xff7d_0000, 0xff7a_0000),
    (EACR, 4, &[0x80, 0x10, 0, 0, 0, 0, 0, 7], 15, 0xff7d_0000, 0xff8e_0000),
    (ETC1, 4, &WRAPPED, 2, 0xff02_0202, 0xff02_0202),
    (EACR_SIGNED, 4, &LOWEST, 0, 0xff07_0000, 0xff08_0000),
    (BC3, 1, &[0, 0, 0, 0, 0, 0, 0, 0, 0, 0, 0xff, 0xff, 2, 0, 0, 0], 0, 0x007f_7f7f, 0x0055_5555),
    (BC3, 1, &[0, 0, 0, 0, 0, 0, 0, 0, 0, 0, 0xff, 0xff, 3, 0, 0, 0], 0, 0, 0x00aa_aaaa),
    (BC3, 1, &[0, 0, 0, 0, 0, 0, 0, 0, 0xff, 0xff, 0xff, 0xff, 3, 0, 0, 0], 0, 0, 0x00ff_ffff),
    (BC2, 1, &[0, 0, 0, 0, 0, 0, 0, 0, 0, 0, 0xff, 0xff, 2, 0, 0, 0], 0, 0x007f_7f7f, 0x0055_5555),
    (BC2, 1, &[0, 0, 0, 0, 0, 0, 0, 0, 0, 0, 0xff, 0xff, 3, 0, 0, 0], 0, 0, 0x00aa_aaaa),
    (BC2, 1, &[0, 0, 0, 0, 0, 0, 0, 0, 0xff, 0xff, 0xff, 0xff, 3, 0, 0, 0], 0, 0, 0x00ff_ffff),
    (BLOCK_BC3_ALPHA, 4, &[1, 0, 0, 0, 0, 0, 0, 0], 16, 0x0100_0000, 0),
    (BLOCK_BC3, 4, &[1, 0, 0, 0, 0, 0, 0, 0, 0, 0, 0, 0, 0, 0, 0, 0], 16, 0x0100_0000, 0),
    (BC1, 1, THIRD, 0, 0xff00_0005, 0xff00_0005),
    (BC1, 1, HALF, 0, 0xff00_0010, 0xff00_0010),
    (BC3, 1, SEVENTH, 0, 0, 0),
    (BC3, 1, FIFTH, 0, 0, 0),
];

/// 16/3 of blue, 33/2 of blue, 6/7 of alpha and 1/5 of alpha.
const THIRD: &[u8] = &[1, 0, 0, 0, 2, 0, 0, 0];
const HALF: &[u8] = &[0, 0, 4, 0, 2, 0, 0, 0];
const SEVENTH: &[u8] = &[1, 0, 2, 0, 0, 0, 0, 0, 0, 0, 0, 0, 0, 0, 0, 0];
const FIFTH: &[u8] = &[0, 1, 2, 0, 0, 0, 0, 0, 0, 0, 0, 0, 0, 0, 0, 0];

const OF_MESA: [Example; 8] = [
    (ETC1, 4, &WRAPPED, 2, 0xff0a_0202, 0xff02_0202),
    (EACR_SIGNED, 4, &LOWEST, 0, 0xff08_0000, 0xff08_0000),
    (BC1, 1, THIRD, 0, 0xff00_0005, 0xff00_0005),
    (BC1, 1, HALF, 0, 0xff00_0010, 0xff00_0010),
    (BC3, 1, SEVENTH, 0, 0, 0),
    (BC3, 1, FIFTH, 0, 0, 0),
    (BC4_SIGNED, 1, &[0xff, 0, 2, 0, 0, 0, 0, 0], 0, 0xff7f_0000, 0xff7e_0000),
    (BC4_SIGNED, 1, &[0x81, 0x80, 7, 0, 0, 0, 0, 0], 0, 0xff00_0000, 0xfffe_0000),
];

const OF_ANDROID: [Example; 1] = [(ETC1, 4, &WRAPPED, 2, 0xff02_0202, 0xff02_0202)];

fn case_of(&(reader, side, data, ..): &Example) -> Case {
    let block = is_block(reader);
    let image = vec![0; if block { 17 } else { (side * side) as usize }];
    Case { reader, channel: if block { 3 } else { 0 }, width: side, height: side, data: data.to_vec(), image }
}

/// The whole answer with only the named element in question.
fn with_element(answer: &Answer, element: usize, pixel: u32) -> Answer {
    let mut due = answer.clone();
    due.image[element] = pixel;
    due
}

fn count(what: &str, examples: &[Example], theirs: Vec<Answer>, program: &str) -> Result<bool> {
    let mut report = Report::new(what.to_string(), "", 2 * examples.len());
    let ours = ask(program, examples.iter().map(case_of).collect())?;
    for ((example, seen), (case, got)) in examples.iter().zip(theirs).zip(ours) {
        let &(.., element, other, due) = example;
        report.count(&case, &with_element(&seen, element, other), &seen, 0);
        report.count(&case, &with_element(&got, element, due), &got, 0);
    }
    Ok(report.close())
}

pub fn of_crate(program: &str) -> Result<bool> {
    let theirs = OF_CRATE.iter().map(|example| crate_answer(&case_of(example))).collect();
    count("DIFFERENCES.md, crate and ours", &OF_CRATE, theirs, program)
}

pub fn of_seconds(mesa: &str, android: &str, program: &str) -> Result<bool> {
    let seen = ask(mesa, OF_MESA.iter().map(case_of).collect())?;
    let theirs = seen.into_iter().map(|(case, seen)| from_mesa(&case, seen, case.reader)).collect();
    let same = count("DIFFERENCES.md, Mesa and ours", &OF_MESA, theirs, program)?;
    let seen = ask(android, OF_ANDROID.iter().map(case_of).collect())?;
    let theirs = seen.into_iter().map(|(_, seen)| seen).collect();
    Ok(same & count("DIFFERENCES.md, Android and ours", &OF_ANDROID, theirs, program)?)
}

/// What the crate does where only document 01 refuses. It accepts a side above 65,536, an
/// alpha half of two bytes with multiplier 0 over any image, and a BC7 block whose first byte is 0 from two bytes on,
/// and it puts a BC3 alpha half into as many elements as there are. Else it stops the whole program on bytes, elements
/// or a channel that it indexes past, or that it shifts too far by.
pub fn crate_has_no_such_refusal() -> bool {
    let hook = take_hook();
    set_hook(Box::new(|_| ()));
    let short = BLOCKS.into_iter().all(|reader| {
        let size = block_size(reader);
        let few = reader == BLOCK_BC3_ALPHA || stops(&refused(reader, 0, size, 15));
        stops(&refused(reader, 0, size - 1, 16)) && few
    });
    let channels =
        [BLOCK_EAC, BLOCK_EAC_SIGNED, BLOCK_BC3_ALPHA].into_iter().all(|reader| stops(&refused(reader, 4, 8, 16)));
    let modeless = modeless_blocks();
    set_hook(hook);
    let wide = Case { width: 65_537, ..refused(ETC1, 0, 0, 0) };
    let alpha = Case { data: vec![0x80, 0], ..refused(BLOCK_A8, 0, 2, 1) };
    let desktop = crate_answer(&refused(BLOCK_BC3_ALPHA, 3, 8, 1)).image == [0x1000_0000];
    let accepts = crate_answer(&wide).number == 0 && crate_answer(&alpha).image == [0x8000_0000] && desktop;
    let so = short && channels && accepts && modeless;
    println!("{:<34} {}", "the crate, where only 01 refuses", if so { "as DIFFERENCES.md says" } else { "otherwise" });
    so
}

// Bytes of 10 hex, so that no multiplier is 0.
fn refused(reader: u32, channel: u32, bytes: usize, elements: usize) -> Case {
    Case { reader, channel, width: 0, height: 0, data: vec![0x10; bytes], image: vec![0; elements] }
}

/// A BC7 block without a mode: its first byte is 0, and all others are the same.
fn modeless(bytes: usize, others: u8, elements: usize) -> Case {
    let mut data = vec![others; bytes];
    data[0] = 0;
    Case { data, image: vec![1; elements], ..refused(BLOCK_BC7, 0, 0, 0) }
}

/// Of 1 to 15 bytes: the crate reads nine bits, so it accepts two bytes and more, whatever follows the first, and paints
/// sixteen pixels of 0. It wants sixteen elements all the same.
fn modeless_blocks() -> bool {
    let paints = |case: Case| crate_answer(&case).image == [vec![0; 16], vec![1]].concat();
    let short = (2..16).all(|bytes| [0, 0xff].into_iter().all(|others| paints(modeless(bytes, others, 17))));
    short && stops(&modeless(1, 0, 16)) && stops(&modeless(16, 0, 15))
}

/// Ours refuses them all with 2.
pub fn modeless_are_refused(program: &str) -> Result<bool> {
    let cases: Vec<Case> = (1..16).map(|bytes| modeless(bytes, 0, 17)).collect();
    let mut report = Report::new("BC7 blocks of 1 to 15 bytes of 00".to_string(), "", cases.len());
    for (case, got) in ask(program, cases)? {
        let due = Answer { number: 2, block: 0, image: case.image.clone() };
        report.count(&case, &due, &got, 0);
    }
    Ok(report.close())
}

/// How the crate's bytes of signed EAC at base 80 hex stand to those at 81, which are ours: over every multiplier, row and
/// index the second is one higher, or both are equal because the first is clamped. Prints how many.
pub fn lowest_base_counted() -> bool {
    let red = |base: u8, choice: usize| {
        let data = vec![base, (choice >> 3) as u8, 0, 0, 0, (choice << 5) as u8, 0, 0];
        crate_answer(&Case { reader: BLOCK_EACR_SIGNED, channel: 0, width: 0, height: 0, data, image: vec![0; 16] }).image[0] >> 16 & 255
    };
    let counted = |(low, next)| (0..2048).filter(|&choice| (red(0x80, choice), red(0x81, choice)) == (low, next)).count();
    let higher: usize = (0..255).map(|byte| counted((byte, byte + 1))).sum();
    let (none, all) = (counted((0, 0)), counted((255, 255)));
    println!("{:<34} {higher} of 2048 one higher, {} equal, all of them clamped", "signed EAC, base 80 hex", none + all);
    higher == 1008 && none + all == 1040
}

fn stops(case: &Case) -> bool {
    catch_unwind(|| crate_answer(case).number).is_err()
}
