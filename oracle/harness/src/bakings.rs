//! The checker and the baker of ETC1 blocks, by the rows that oracle/bake prints, and request M-112's refusals.

use crate::protocol::Answer;
use crate::stored::{List, Whole};
use std::io::{Error, Result};

const CHECK: u64 = 166;
const BAKE: u64 = 167;
/// Each byte of the room before.
const ROOM: u32 = 0xee;

/// The bases, the flip, the tile, the block that comes closest, and its largest difference.
struct Baking {
    bases: Vec<u8>,
    flip: u64,
    tile: Vec<u32>,
    block: Vec<u8>,
    largest: u64,
}

// A number in hex, by so many digits each.
fn digits(word: &str, each: usize) -> Option<Vec<u32>> {
    let text = word.strip_prefix("0x")?.as_bytes();
    text.chunks(each).map(|part| u32::from_str_radix(std::str::from_utf8(part).ok()?, 16).ok()).collect()
}

fn parse(line: &str) -> Option<Baking> {
    let words: Vec<&str> = line.split_whitespace().skip_while(|word| *word != "bakes").skip(1).collect();
    let bytes = |word: &str, each| Some(digits(word, each)?.into_iter().map(|n| n as u8).collect::<Vec<u8>>());
    let [first, second, flip, tile, block, _, largest] = words[..] else { return None };
    let bases = [bytes(first, 1)?, bytes(second, 1)?].concat();
    let (flip, largest) = (flip.parse().ok()?, largest.parse().ok()?);
    Some(Baking { bases, flip, tile: digits(tile, 8)?, block: bytes(block, 2)?, largest })
}

fn whole(numbers: [u64; 2], data: Vec<u8>, image: Vec<u32>, number: u32, after: Vec<u32>) -> Whole {
    let numbers = [numbers[0], numbers[1], 0, 0, 0, 0];
    Whole { numbers, data, image, due: Answer { number, block: 0, image: after } }
}

fn bytes(tile: &[u32]) -> impl Iterator<Item = u8> + '_ {
    tile.iter().flat_map(|element| element.to_le_bytes())
}

// The block in its room, with up to four bytes more.
fn baked(n: usize, baking: &Baking) -> Whole {
    let data = baking.bases.iter().copied().chain(bytes(&baking.tile)).collect();
    let room = vec![ROOM; 8 + n % 5];
    let after = baking.block.iter().map(|&b| b as u32).chain(vec![ROOM; n % 5]).collect();
    whole([BAKE, baking.flip], data, room, 0, after)
}

// Accepted from the largest difference on, and not below.
fn checked(baking: &Baking) -> Vec<Whole> {
    let of = |tolerance, number| {
        whole([CHECK, tolerance], baking.block.clone(), baking.tile.clone(), number, baking.tile.clone())
    };
    let below = baking.largest.checked_sub(1).map(|tolerance| of(tolerance, 18));
    [of(baking.largest, 0), of(baking.largest + 1, 0)].into_iter().chain(below).collect()
}

// 16, then 2, then 3, and nothing written.
fn refused() -> Vec<Whole> {
    let mut list = Vec::new();
    for (base, flip) in [(15, 0), (15, 1), (16, 0), (255, 1), (0, 2), (0, 256), (0, u64::MAX)] {
        for (room, tile) in [(8, 16), (9, 17), (7, 16), (8, 15), (7, 15), (0, 0)] {
            let number = match () {
                _ if base > 15 || flip > 1 => 16,
                _ if room < 8 => 2,
                _ if tile < 16 => 3,
                _ => continue,
            };
            for at in 0..6 {
                let mut data = vec![0; 6 + 4 * tile];
                data[at] = base;
                list.push(whole([BAKE, flip], data, vec![ROOM; room], number, vec![ROOM; room]));
            }
        }
    }
    let tile = vec![0; 16];
    for (block, elements) in [(7, 16), (8, 15), (7, 15), (0, 0)] {
        let number = if block < 8 { 2 } else { 3 };
        list.push(whole([CHECK, 255], vec![0; block], tile[..elements].to_vec(), number, tile[..elements].to_vec()));
    }
    let newer = vec![0xf9, 0, 0, 2, 0, 0, 0, 0];
    list.push(whole([CHECK, 255], newer, tile.clone(), 18, tile));
    list
}

pub fn put(list: &mut List, path: &str) -> Result<()> {
    let text = std::fs::read_to_string(path)?;
    let rows: Option<Vec<Baking>> = text.lines().map(parse).collect();
    let rows = rows.ok_or_else(|| Error::other(format!("{path} has a line that is no row")))?;
    let wholes: Vec<Whole> = rows.iter().enumerate().map(|(n, row)| baked(n, row)).collect();
    list.wholes("bake_etc1_block", &wholes);
    list.wholes("check_etc1_block", &rows.iter().flat_map(checked).collect::<Vec<Whole>>());
    list.wholes("checker and baker: refusals", &refused());
    Ok(())
}
