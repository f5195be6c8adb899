//! Rows for the list of specimens in crates/rules, as antt text: blocks that between them see every entry of every table
//! and every field of every kind, with the answers of the crate, which Mesa and Android must share where they can be
//! asked. The program under test is not asked.

use crate::blocks::{bc7, channel, colour, desktop, desktop_alpha, h_orders, rgtc};
use crate::expected::expected;
use crate::protocol::{ask, Answer, Case, Pair};
use crate::random::Random;
use crate::readers::*;
use crate::rules::verdict;
use crate::second::{from_mesa, rounded, wrapped_halves};
use std::cmp::Ordering::{self, Equal, Greater, Less};
use std::fmt::Write;
use std::io::{Error, Result};

/// What stands in every element that a row does not give.
const OLD: u32 = 0x1111_1111;
/// Sixteen indices of three bits, of which the two upper rows have 0 to 7, and the lower ones too; and in another order.
pub const EVERY_INDEX: [u64; 2] = [0x07e4_ec95_adc8, 0x62ad_783e_6519];

struct Row {
    about: &'static str,
    case: Case,
}

type Block = [u8; 8];

fn row(about: &'static str, reader: u32, (width, height): (u32, u32), blocks: &[Block], image: Vec<u32>) -> Row {
    Row { about, case: Case { reader, channel: 0, width, height, data: blocks.concat(), image } }
}

// A picture, and one element behind it.
fn picture(about: &'static str, reader: u32, size: (u32, u32), blocks: &[Block]) -> Row {
    row(about, reader, size, blocks, vec![OLD; (size.0 * size.1) as usize + 1])
}

// Sixteen elements of any value, and one behind them.
fn joined(about: &'static str, reader: u32, channel: u32, block: Block, random: &mut Random) -> Row {
    let image = (0..17).map(|_| random.next() as u32).collect();
    let mut row = row(about, reader, (4, 4), &[block], image);
    row.case.channel = channel;
    row
}

fn of_kinds(kinds: &[usize], random: &mut Random) -> Vec<Block> {
    kinds.iter().map(|&kind| colour(kind, random)).collect()
}

// Each group has numbers of its own, so that a change in one leaves the others as they are. Two, made at the same time by two requests,
// begin at the same.
fn rows(seed: u64) -> Vec<Row> {
    let groups: [(u64, fn(&mut Random) -> Vec<Row>); 13] = [
        (0, glance),
        (1, single),
        (2, etc1),
        (3, etc2),
        (4, alphas),
        (5, channels),
        (6, places),
        (7, strict),
        (8, opaque),
        (8, desktops),
        (9, bptc),
        (10, inside),
        (11, rest_of_the_desktop),
    ];
    groups.into_iter().flat_map(|(number, group)| group(&mut Random::new(seed << 8 | number))).collect()
}

// The first row of a block or two of each format and kind: most mistakes are seen here, at little cost.
fn glance(random: &mut Random) -> Vec<Row> {
    let about = "at a glance";
    let mut halves = |count: usize| -> Vec<Block> { (0..count).map(|_| channel(7, random)).collect() };
    let (red, signed, both, both_signed) = (halves(1), halves(1), halves(2), halves(2));
    let alpha = halves(1)[0];
    vec![
        picture(about, RGB, (20, 1), &of_kinds(&[0, 1, 2, 3, 4], random)),
        picture(about, ETC1, (8, 1), &of_kinds(&[0, 2], random)),
        picture(about, RGBA1, (16, 1), &cleared(of_kinds(&[1, 2, 3, 4], random))),
        picture(about, RGBA8, (4, 1), &[alpha, colour(1, random)]),
        picture(about, EACR, (4, 1), &red),
        picture(about, EACR_SIGNED, (4, 1), &signed),
        picture(about, EACRG, (4, 1), &both),
        picture(about, EACRG_SIGNED, (4, 1), &both_signed),
    ]
}

fn etc1(random: &mut Random) -> Vec<Row> {
    // Bases from which no step clamps in all three channels, and indices of which the upper rows of each half have all four.
    let code = |n: u8| [0x21, 0x78, 0xde, 2 * n << 5 | (2 * n + 1) << 2, 0x3c, 0x3c, 0x55, 0xaa];
    let codes: Vec<Block> = (0..4).map(code).collect();
    vec![
        picture("ETC1, individual: every code", ETC1, (16, 2), &codes),
        picture(
            "ETC1, differential: sums in range, and out of it",
            ETC1,
            (32, 2),
            &of_kinds(&[1, 2, 3, 4, 1, 2, 3, 4], random),
        ),
    ]
}

fn cleared(blocks: Vec<Block>) -> Vec<Block> {
    blocks.into_iter().map(|b| [b[0], b[1], b[2], b[3] & !2, b[4], b[5], b[6], b[7]]).collect()
}

fn etc2(random: &mut Random) -> Vec<Row> {
    let t: Vec<Block> = (0..8).map(|number| t_block(number, random)).collect();
    let h: Vec<Block> = (0..8).map(|number| h_block(number, random)).collect();
    let mut planar = of_kinds(&[4, 4], random);
    planar.push(planar_at_the_turn(random));
    let kinds = of_kinds(&[1, 2, 3, 4, 1, 2, 3, 4], random);
    vec![
        picture("ETC2 RGB, individual, whatever the sums are", RGB, (16, 2), &cleared(of_kinds(&[1, 2, 3, 4], random))),
        picture("ETC2 RGB, differential", RGB, (8, 2), &of_kinds(&[1, 1], random)),
        picture("ETC2 RGB, T: every distance", RGB, (32, 2), &t),
        picture(
            "ETC2 RGB, H: every distance, the order of the bases decided by each channel both ways, and a tie",
            RGB,
            (32, 2),
            &h,
        ),
        picture("ETC2 RGB, planar", RGB, (12, 4), &planar),
        picture("ETC2 RGBA1, opaque bit clear: differential, T, H, planar", RGBA1, (32, 2), &cleared(kinds)),
        picture("ETC2 RGBA1, opaque bit set", RGBA1, (16, 2), &of_kinds(&[1, 2, 3, 4], random)),
        picture("ETC2 RGB, planar: clamped high and low", RGB, (4, 4), &[planar_clamped(random)]),
    ]
}

fn t_block(number: u8, random: &mut Random) -> Block {
    let mut block = colour(2, random);
    block[3] = block[3] & !0x0d | number / 2 * 4 | number % 2;
    block
}

// How red, green and blue of the first base of an H block stand to the second's. The last bit of a distance number says
// whether the first base is not less: these see every number, each channel decide both ways, and a tie.
const H_ORDERS: [[Ordering; 3]; 8] = [
    [Less, Greater, Greater],
    [Greater, Less, Less],
    [Equal, Less, Greater],
    [Equal, Greater, Less],
    [Equal, Equal, Less],
    [Equal, Equal, Greater],
    [Less, Less, Less],
    [Equal, Equal, Equal],
];

fn h_block(number: u8, random: &mut Random) -> Block {
    loop {
        let mut block = colour(3, random);
        block[3] = block[3] & !5 | number / 4 * 4 | number / 2 % 2;
        if h_orders(&block) == H_ORDERS[number as usize] {
            return block;
        }
    }
}

// Greens of 64 and 63, between which the widening of seven bits to eight turns.
fn planar_at_the_turn(random: &mut Random) -> Block {
    loop {
        let mut block = colour(4, random);
        if block[0] % 2 == 1 && block[1] & 0x7e == 0 {
            block[4] = 63 << 1 | block[4] % 2;
            return block;
        }
    }
}

// Red at the right and below is the highest, blue the lowest, green one of each: in the corner red and blue clamp.
fn planar_clamped(random: &mut Random) -> Block {
    let block = colour(4, random);
    [block[0], block[1], block[2], block[3] | 0x7f, 0xfe, 0x07, 0xe0, 0x00]
}

fn alphas(random: &mut Random) -> Vec<Row> {
    let halves: Vec<Block> = [(0, 0), (2, 1), (1, 2), (7, 3)]
        .into_iter()
        .flat_map(|(alpha, kind)| [channel(alpha, random), colour(kind, random)])
        .collect();
    vec![picture("ETC2 RGBA8", RGBA8, (16, 2), &halves)]
}

fn channels(random: &mut Random) -> Vec<Row> {
    let steps: Vec<Block> = (0..16)
        .map(|table| {
            let index = EVERY_INDEX[table as usize % 2].to_be_bytes();
            [0x80, 0x10 + table, index[2], index[3], index[4], index[5], index[6], index[7]]
        })
        .collect();
    let mut kinds = |count: usize| -> Vec<Block> { (0..count).map(|kind| channel(kind, random)).collect() };
    vec![
        picture("EAC R: every alpha step", EACR, (64, 2), &steps),
        picture("EAC R: no multiplier, clamped low and high, the turning points", EACR, (32, 2), &kinds(8)),
        picture("EAC R signed", EACR_SIGNED, (32, 2), &kinds(8)),
        picture("EAC RG", EACRG, (16, 2), &kinds(8)),
        picture("EAC RG signed", EACRG_SIGNED, (16, 2), &kinds(8)),
    ]
}

// Clipped at both sides, with a block that is not read and elements that are not touched.
fn places(random: &mut Random) -> Vec<Row> {
    let five = of_kinds(&[0, 1, 2, 3, 4, 0, 1], random);
    vec![
        row("clipped, with bytes and elements to spare", RGB, (9, 6), &five, vec![OLD; 57]),
        row("blocks of sixteen bytes, clipped", EACRG, (3, 5), &of_kinds(&[0, 1, 2, 3, 4], random)[..4], vec![OLD; 17]),
    ]
}

// One block, and just as many elements as it takes.
fn lone(reader: u32, blocks: &[Block]) -> Row {
    row("one block", reader, (4, 4), blocks, vec![OLD; 16])
}

// Elements 0, 1, 2 and so on: none is so large that it could not be an exponent, where a definition mistakes it for one.
fn counted_on() -> Row {
    let mut row =
        row("one channel", BLOCK_EAC, (4, 4), &[[0x80, 0x2b, 0x07, 0xe4, 0xec, 0x95, 0xad, 0xc8]], (0..17).collect());
    row.case.channel = 1;
    row
}

fn single(random: &mut Random) -> Vec<Row> {
    let mut list = Vec::new();
    for (reader, kinds) in [(BLOCK_ETC1, [2, 1]), (BLOCK_RGB, [3, 0]), (BLOCK_RGBA1, [1, 2]), (BLOCK_RGBA8, [4, 2])] {
        list.push(lone(reader, &of_kinds(&kinds, random)));
    }
    for reader in [BLOCK_EACR, BLOCK_EACR_SIGNED, BLOCK_EACRG, BLOCK_EACRG_SIGNED] {
        list.push(lone(reader, &[channel(7, random), channel(7, random)]));
    }
    for kind in [0, 7] {
        list.push(joined("the alpha half alone", BLOCK_A8, 0, channel(kind, random), random));
    }
    list.push(counted_on());
    for (number, reader) in [BLOCK_EAC, BLOCK_EAC, BLOCK_EAC_SIGNED, BLOCK_EAC_SIGNED].into_iter().enumerate() {
        list.push(joined("one channel", reader, number as u32, channel(7, random), random));
    }
    list
}

fn strict(random: &mut Random) -> Vec<Row> {
    let (four, two) = (of_kinds(&[0, 1, 0, 1], random), of_kinds(&[1, 3, 2], random));
    let (last, behind) = (of_kinds(&[0, 1, 4, 2], random), of_kinds(&[1, 0, 2], random));
    vec![
        picture("strict: in range", STRICT, (8, 5), &four),
        picture("strict: the first of two", STRICT, (12, 4), &two),
        picture("strict: the last of the picture", STRICT, (9, 4), &last[..3]),
        picture("strict: a block left over behind an accepted picture", STRICT, (8, 4), &behind),
        picture("strict: the same picture without it", STRICT, (8, 4), &behind[..2]),
        picture("strict: a block left over behind a refused picture", STRICT, (9, 4), &last),
        picture("strict: individual, whatever the sums are", STRICT, (12, 2), &cleared(of_kinds(&[2, 3, 4], random))),
        picture("strict: six in range", STRICT, (24, 1), &of_kinds(&[0, 1, 0, 1, 0, 1], random)),
        picture("strict: the last of six", STRICT, (24, 1), &of_kinds(&[0, 1, 0, 1, 0, 3], random)),
    ]
}

fn opaque(random: &mut Random) -> Vec<Row> {
    let (eight, four) = (of_kinds(&[1, 2, 3, 4, 4, 3, 2, 1], random), of_kinds(&[4, 1, 2, 3], random));
    let (first, last) = (with_clear(&four, &[1, 3]), with_clear(&four, &[3]));
    let planar = with_clear(&of_kinds(&[1, 4, 2], random), &[1]);
    vec![
        picture("opaque: every kind twice", OPAQUE, (32, 2), &eight),
        picture("opaque: the first of two", OPAQUE, (16, 4), &first),
        picture("opaque: the last of the picture", OPAQUE, (8, 5), &last),
        picture("opaque: only a planar block is clear", OPAQUE, (12, 4), &planar),
        picture("opaque: a clear block behind the picture", OPAQUE, (9, 2), &last),
    ]
}

// The blocks, of which those that are named have their opaque bit clear.
fn with_clear(blocks: &[Block], clear: &[usize]) -> Vec<Block> {
    let mut blocks = blocks.to_vec();
    clear.iter().for_each(|&number| blocks[number][3] &= !2);
    blocks
}

// Two upper rows of a tile have every index, 0 to 3, in two orders.
fn every_two_bits(mut block: Block, turn: usize) -> Block {
    block[4..6].copy_from_slice(&[[0xe4, 0x1b], [0x39, 0x6c]][turn % 2]);
    block
}

// And 0 to 7.
fn every_three_bits(mut block: Block, turn: usize) -> Block {
    let index = EVERY_INDEX[turn % 2].to_le_bytes();
    block[2..8].copy_from_slice(&index[..6]);
    block
}

// BC1 and BC3: each order of the two colours and of the two alphas, equal ones too, and every index.
fn desktops(random: &mut Random) -> Vec<Row> {
    let colours: Vec<Block> = (0..6).map(|kind| every_two_bits(desktop(kind, random), kind)).collect();
    let both: Vec<Block> = (0..6)
        .flat_map(|kind| {
            let alpha = every_three_bits(desktop_alpha(kind, random), kind);
            [alpha, every_two_bits(desktop([1, 0, 2, 1, 0, 1][kind], random), kind)]
        })
        .collect();
    let mut list = vec![
        picture("BC1: four colours, three, and equal ones", BC1, (24, 2), &colours),
        picture("BC1 with one bit of alpha", BC1A, (24, 2), &colours),
        picture("BC3: sevenths, fifths, and equal ones; always four colours", BC3, (24, 2), &both),
        picture("BC1, all sixteen pixels", BC1, (4, 4), &[desktop(0, random)]),
        picture("BC3, all sixteen pixels", BC3, (4, 4), &[desktop_alpha(0, random), desktop(1, random)]),
        lone(BLOCK_BC1, &[desktop(1, random)]),
        lone(BLOCK_BC1A, &[desktop(1, random)]),
        lone(BLOCK_BC3, &[desktop_alpha(1, random), desktop(1, random)]),
    ];
    for into in 0..4 {
        let half = desktop_alpha(into as usize % 2, random);
        list.push(joined("a BC3 alpha half into a channel", BLOCK_BC3_ALPHA, into, half, random));
    }
    list
}

// BC7: two blocks of each mode, with partitions and rotations that differ; each rotation with each index selection; one without a mode.
fn bptc(random: &mut Random) -> Vec<Row> {
    let mut of = |mode: usize, bits: usize| -> [Block; 2] { [bc7(8 * bits + mode, random), random.next().to_le_bytes()] };
    let modes: Vec<Block> = [(0, 5), (1, 38), (2, 59), (3, 17), (6, 44), (7, 23)].map(|(mode, bits)| of(mode, bits)).concat();
    let turned: Vec<Block> = (0..8).flat_map(|bits| of(4, bits)).collect();
    let others: Vec<Block> = (0..4).flat_map(|bits| of(5, bits)).collect();
    let lone_block = of(1, 9);
    let none = [[0, 255, 255, 255, 255, 255, 255, 255], [255; 8]];
    vec![
        picture("BC7: modes 0, 1, 2, 3, 6 and 7", BC7, (24, 4), &modes),
        picture("BC7: mode 4, each rotation with each index selection", BC7, (32, 1), &turned),
        picture("BC7: mode 5, each rotation", BC7, (16, 1), &others),
        picture("BC7: no mode", BC7, (4, 1), &none),
        lone(BLOCK_BC7, &lone_block),
    ]
}

// BC7: partitions with anchors in the middle of the indices; and no index selection, with the bit behind it set.
fn inside(random: &mut Random) -> Vec<Row> {
    let mut of = |mode: usize, bits: usize| -> [Block; 2] { [bc7(8 * bits + mode, random), random.next().to_le_bytes()] };
    let anchored: Vec<Block> = [(0, 4), (1, 18), (2, 23), (3, 34), (7, 19)].map(|(mode, bits)| of(mode, bits)).concat();
    let mut unselected: Vec<Block> = [of(4, 0), of(5, 0)].concat();
    unselected.iter_mut().step_by(2).for_each(|half| half[1] |= 1);
    vec![
        picture("BC7: anchors in the middle", BC7, (20, 4), &anchored),
        picture("BC7: no index selection", BC7, (8, 4), &unselected),
    ]
}

// BC2, BC4 and BC5: every index, each order of two colours and of two values, equal ones too, and the lowest signed ones.
fn rest_of_the_desktop(random: &mut Random) -> Vec<Row> {
    let sixteen: Vec<Block> =
        (0..4).flat_map(|kind| [random.next().to_le_bytes(), every_two_bits(desktop(kind, random), kind)]).collect();
    let mut halves = |count: usize| -> Vec<Block> {
        (0..count).map(|kind| every_three_bits(rgtc(kind % 8, random), kind / 2)).collect()
    };
    let (red, signed, both, both_signed) = (halves(8), halves(8), halves(8), halves(8));
    let lowest = [[0x81, 0x80, 0x88, 0xc6, 0xfa, 0x88, 0xc6, 0xfa]];
    vec![
        picture("BC2: four colours in either order", BC2, (16, 2), &sixteen),
        picture("BC4: sevenths, fifths, and equal ones", BC4, (32, 2), &red),
        picture("BC4 signed", BC4_SIGNED, (32, 2), &signed),
        picture("BC4 signed: -127 and -128 are equal", BC4_SIGNED, (4, 2), &lowest),
        picture("BC5", BC5, (16, 2), &both),
        picture("BC5 signed", BC5_SIGNED, (16, 2), &both_signed),
        lone(BLOCK_BC2, &[random.next().to_le_bytes(), desktop(1, random)]),
        lone(BLOCK_BC4, &[rgtc(1, random)]),
        lone(BLOCK_BC4_SIGNED, &[rgtc(1, random)]),
        lone(BLOCK_BC5, &[rgtc(0, random), rgtc(1, random)]),
        lone(BLOCK_BC5_SIGNED, &[rgtc(0, random), rgtc(1, random)]),
    ]
}

pub fn write(options: &crate::Options) -> Result<bool> {
    let rows = rows(options.seed);
    let pairs: Vec<Pair> =
        rows.iter().map(|row| (row.case.clone(), expected(&row.case, &options.listed).answer)).collect();
    shared(options, &pairs)?;
    let mut text = options.about.clone() + "\n";
    for (number, (row, (case, due))) in rows.iter().zip(&pairs).enumerate() {
        let sign = if number == 0 { "" } else { "∷ " };
        let _ = writeln!(text, "    -- {}\n    {sign}{}", row.about, line(case, due));
    }
    text += "    ∷ []\n";
    std::fs::write(format!("{}/Recorded.antt", options.folder), text)?;
    println!("{} rows, {} pixels", rows.len(), pairs.iter().map(|(case, _)| case.image.len()).sum::<usize>());
    Ok(true)
}

// Mesa and Android's libETC1 have to show the same in every picture.
fn shared(options: &crate::Options, pairs: &[Pair]) -> Result<()> {
    for (program, label) in [(&options.mesa, "Mesa"), (&options.android, "Android")] {
        let readers = if label == "Mesa" { &FORMATS[..] } else { &[ETC1] };
        let cases: Vec<Case> = pairs
            .iter()
            .filter(|(case, due)| readers.contains(&case.reader) && due.number == 0)
            .map(|(case, _)| exact(case))
            .collect();
        for (case, seen) in ask(program, cases)? {
            let due = expected(&case, &options.listed).answer;
            let left = if label == "Mesa" { wrapped_halves(&case) } else { Vec::new() };
            let seen = if label == "Mesa" { from_mesa(&case, seen, case.reader) } else { seen };
            let mut seen = rounded(&case, seen, &due.image);
            left.iter().for_each(|&k| seen.image[k] = due.image[k]);
            if seen != due {
                return Err(Error::other(format!(
                    "{label} has another answer than the crate to a row of {}",
                    name(case.reader)
                )));
            }
        }
    }
    Ok(())
}

// Lengths as a decoder without refusals wants them.
fn exact(case: &Case) -> Case {
    let mut case = case.clone();
    case.image.truncate((case.width * case.height) as usize);
    case.data.truncate(crate::rules::blocks(&case) * block_size(case.reader));
    case
}

fn line(case: &Case, due: &Answer) -> String {
    let (reader, blocks) = (antt_reader(case), blocks(&case.data));
    let (width, height) = (case.width, case.height);
    if due.number != 0 {
        let said = match verdict(case) {
            (number @ (4 | 11), block) => format!("{number} ∷ {block} ∷ []"),
            (number, _) => format!("{number} ∷ []"),
        };
        let elements = case.image.len();
        return format!("refuses ({reader}) {width} {height}\n    {blocks}\n    {elements} ({said})");
    }
    if case.image.iter().all(|&element| element == OLD) {
        let painted = (width * height) as usize;
        let spare = due.image.len() - painted;
        let across = (1..=12).rev().find(|n| width % n == 0).unwrap_or(1) as usize;
        let pixels = lines(across, &due.image[..painted]);
        return format!("packed ({reader}) {width} {height}\n    {blocks}\n    {across}\n    {pixels}\n    {spare}");
    }
    let (old, new) = (lines(17, &case.image), lines(17, &due.image));
    format!("joins ({reader}) {width} {height}\n    {blocks}\n    17\n    {old}\n    {new}")
}

fn blocks(data: &[u8]) -> String {
    let word = |b: &[u8]| u32::from_be_bytes([b[0], b[1], b[2], b[3]]);
    list(data.chunks(8).map(|b| number(&[word(b), word(&b[4..])])), 5)
}

// So many elements are one number.
fn lines(across: usize, image: &[u32]) -> String {
    list(image.chunks(across).map(number), 1)
}

fn number(words: &[u32]) -> String {
    let words: Vec<String> = words.iter().map(|word| format!("{word:08X}")).collect();
    format!("0x{}", words.join("_"))
}

fn list(items: impl Iterator<Item = String>, across: usize) -> String {
    let items: Vec<String> = items.collect();
    let lines: Vec<String> = items.chunks(across).map(|chunk| chunk.join(" ∷ ")).collect();
    format!("({} ∷ [])", lines.join("\n    ∷ "))
}

fn antt_reader(case: &Case) -> String {
    match case.reader {
        STRICT => "strict".to_string(),
        OPAQUE => "opaque".to_string(),
        BLOCK_A8 => "alpha_half".to_string(),
        BLOCK_EAC => format!("channel false {}", case.channel),
        BLOCK_EAC_SIGNED => format!("channel true {}", case.channel),
        BLOCK_BC3_ALPHA => format!("alpha_into {}", case.channel),
        reader if !is_block(reader) => format!("picture {}", antt_format(reader)),
        reader => format!("block {}", antt_format(picture_of(reader))),
    }
}

fn antt_format(reader: u32) -> &'static str {
    let names = [
        "Etc1",
        "Etc2Rgb",
        "Etc2Rgba1",
        "Etc2Rgba8",
        "EacR",
        "EacRSigned",
        "EacRg",
        "EacRgSigned",
        "Bc1",
        "Bc1Alpha",
        "Bc3",
        "Bc7",
        "Bc2",
        "Bc4",
        "Bc4Signed",
        "Bc5",
        "Bc5Signed",
    ];
    names[FORMATS.iter().position(|&format| format == reader).unwrap_or(0)]
}
