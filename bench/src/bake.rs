//! The baker of ETC1 blocks beside a plain search in Rust, and the checker, turn by turn.
use crate::blocks::Random;
use std::hint::black_box;
use yalivucu::typed::{bake_etc1_block, check_etc1_block};

const TILES: usize = 4096;
const TURNS: usize = 31;
/// The most of the plain search's time that the baker may take.
const LIMIT: f64 = 1.40;
const STEPS: [[i32; 2]; 8] = [
    [2, 8],
    [5, 17],
    [9, 29],
    [13, 42],
    [18, 60],
    [24, 80],
    [33, 106],
    [47, 183],
];

struct Tile {
    pixels: [u32; 16],
    bases: [[u8; 3]; 2],
    flip: bool,
}

fn channels(pixel: u32) -> [i32; 3] {
    [16, 8, 0].map(|at| (pixel >> at & 255) as i32)
}

fn half(flip: bool, k: usize) -> usize {
    if flip {
        k / 8
    } else {
        k % 4 / 2
    }
}

/// Any colours, within 64 of one colour of each half; the bases are that colour's.
fn tile(random: &mut Random) -> Tile {
    let bases = [(); 2].map(|()| [(); 3].map(|()| random.below(16) as u8));
    let flip = random.below(2) == 1;
    let mut pixels = [0; 16];
    for (k, pixel) in pixels.iter_mut().enumerate() {
        for base in bases[half(flip, k)] {
            let near = i32::from(base) * 17 + random.below(129) as i32 - 64;
            *pixel = *pixel << 8 | near.clamp(0, 255) as u32;
        }
    }
    Tile { pixels, bases, flip }
}

/// The index of least difference, and that difference.
fn nearest(colours: &[[i32; 3]; 4], pixel: [i32; 3]) -> (usize, i32) {
    let mut best = (0, i32::MAX);
    for (index, colour) in colours.iter().enumerate() {
        let far = (0..3).map(|k| (colour[k] - pixel[k]).abs()).sum();
        if far < best.1 {
            best = (index, far);
        }
    }
    best
}

fn colours(base: [u8; 3], code: usize) -> [[i32; 3]; 4] {
    let [small, large] = STEPS[code];
    [small, large, -small, -large].map(|step| base.map(|v| (i32::from(v) * 17 + step).clamp(0, 255)))
}

/// The block as one would write the search down: each half by itself, every code, every pixel, every index.
fn searched(tile: &Tile) -> [u8; 8] {
    let pixels = tile.pixels.map(channels);
    let (mut codes, mut high, mut low) = ([0; 2], 0_u16, 0_u16);
    for h in 0..2 {
        let mut least = i32::MAX;
        for code in 0..8 {
            let four = colours(tile.bases[h], code);
            let own = (0..16).filter(|k| half(tile.flip, *k) == h);
            let sum = own.map(|k| nearest(&four, pixels[k]).1).sum();
            if sum < least {
                (least, codes[h]) = (sum, code);
            }
        }
        let four = colours(tile.bases[h], codes[h]);
        for k in (0..16).filter(|k| half(tile.flip, *k) == h) {
            let index = nearest(&four, pixels[k]).0 as u16;
            high |= (index / 2) << (k % 4 * 4 + k / 4);
            low |= (index % 2) << (k % 4 * 4 + k / 4);
        }
    }
    let [a, b, c] = [0, 1, 2].map(|k| tile.bases[0][k] << 4 | tile.bases[1][k]);
    let d = (codes[0] << 5 | codes[1] << 2) as u8 | u8::from(tile.flip);
    let ([e, f], [g, h]) = (high.to_be_bytes(), low.to_be_bytes());
    [a, b, c, d, e, f, g, h]
}

/// The processor time of a turn over all tiles, in microseconds a tile.
fn turn(tiles: &[Tile], mut work: impl FnMut(usize, &Tile)) -> f64 {
    let began = crate::clock::seconds();
    for (n, tile) in tiles.iter().enumerate() {
        work(n, black_box(tile));
    }
    (crate::clock::seconds() - began) * 1e6 / tiles.len() as f64
}

/// Two rows, and whether the bytes are the search's.
pub fn print(random: &mut Random) -> bool {
    let tiles: Vec<Tile> = (0..TILES).map(|_| tile(random)).collect();
    let mut blocks = vec![([0; 8], [0; 8]); TILES];
    let mut taken = [vec![], vec![], vec![]];
    for _ in 0..TURNS {
        taken[0].push(turn(&tiles, |n, tile| blocks[n].0 = searched(tile)));
        taken[1].push(turn(&tiles, |n, tile| {
            let [first, second] = tile.bases;
            bake_etc1_block(first, second, tile.flip, &tile.pixels, &mut blocks[n].1).expect("the library refused");
        }));
        taken[2].push(turn(&tiles, |n, tile| {
            black_box(check_etc1_block(&blocks[n].1, &tile.pixels, 255)).expect("the library refused");
        }));
    }
    let [plain, ours, checked] = taken.map(crate::median);
    let same = blocks.iter().all(|(one, two)| one == two);
    println!("ETC1 blocks baked of {TILES} tiles; microseconds a tile, medians of {TURNS} turns");
    println!("| | plain search in Rust | library | ratio | limit | same bytes |");
    println!("|---|---|---|---|---|---|");
    let fine = crate::row("baked", plain / 1e3, ours / 1e3, LIMIT, same);
    println!("| checked, accepted | | {checked:.2} | | | |\n");
    fine
}
