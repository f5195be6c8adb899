//! Counts what an older viewer shows wrong from the crate's own pictures, and holds the library's counts to it. Run by oracle/older,
//! which says how.
use std::process::ExitCode;
use yalivucu::typed::{older_etc1, older_rgb, OlderCounts, Picture, Refusal};

type Reader = fn(&[u8], usize, usize, &mut [u32]) -> Result<(), &'static str>;

struct Pair {
    name: &'static str,
    older: Reader,
    newer: Reader,
    /// What docs/DIFFERENCES.md lists of the newer reader, as an equation over the crate's pixel.
    listed: fn(u32) -> u32,
    count: fn(&[u8], Picture) -> Result<OlderCounts, Refusal>,
}

const PAIRS: [Pair; 2] = [
    Pair {
        name: "older_etc1",
        older: given::decode_etc1,
        newer: given::decode_etc2_rgb,
        listed: |pixel| pixel,
        count: older_etc1,
    },
    Pair {
        name: "older_rgb",
        older: given::decode_etc2_rgb,
        newer: given::decode_etc2_rgba1,
        listed: |pixel| if pixel >> 24 == 0 { 0 } else { pixel },
        count: older_rgb,
    },
];

/// A small random generator (xorshift).
struct Random(u64);

impl Random {
    fn next(&mut self) -> u64 {
        self.0 ^= self.0 << 13;
        self.0 ^= self.0 >> 7;
        self.0 ^= self.0 << 17;
        self.0.wrapping_mul(0x2545_f491_4f6c_dd1d) >> 16
    }

    /// Blocks of random bytes; of every four, one has sums near the edge of the range, and one its indices all alike.
    fn blocks(&mut self, n: usize) -> Vec<u8> {
        let mut data: Vec<u8> = (0..n * 8).map(|_| self.next() as u8).collect();
        for block in data.chunks_mut(8) {
            match self.next() % 4 {
                0 => {
                    let edge = [0x04, 0x00, 0xfb, 0xf8, 0x80];
                    block[..3].fill_with(|| edge[(self.next() % 5) as usize]);
                }
                1 => block[4..].fill([0x00, 0xff, 0xcc][(self.next() % 3) as usize]),
                _ => {}
            }
        }
        data
    }
}

/// Pixels, blocks, the first block and place (or the number of blocks and 16), the largest difference of a colour and of an alpha: as
/// the library's.
type Counts = [usize; 6];

fn library(pair: &Pair, data: &[u8], width: usize, height: usize) -> Counts {
    let blocks = width.div_ceil(4) * height.div_ceil(4);
    let counts = (pair.count)(data, Picture::new(width, height)).expect("the library refused");
    let (block, place) = counts.first.map_or((blocks, 16), |pixel| (pixel.block, pixel.place));
    [counts.pixels, counts.blocks, block, place, counts.colour.into(), counts.alpha.into()]
}

/// The same from the crate's two pictures, block by block.
fn crates_own(pair: &Pair, data: &[u8], width: usize, height: usize) -> Counts {
    let painted = |reader: Reader| {
        let mut image = vec![0; width * height];
        reader(data, width, height, &mut image).expect("the crate refused");
        image
    };
    let (old, new) = (painted(pair.older), painted(pair.newer).into_iter().map(pair.listed).collect::<Vec<u32>>());
    let (across, down) = (width.div_ceil(4), height.div_ceil(4));
    let mut counts = [0, 0, across * down, 16, 0, 0];
    for block in 0..across * down {
        let mut first = 16;
        for place in 0..16 {
            let (x, y) = (block % across * 4 + place % 4, block / across * 4 + place / 4);
            if x >= width || y >= height || old[y * width + x] == new[y * width + x] {
                continue;
            }
            first = first.min(place);
            counts[0] += 1;
            let (old, new) = (old[y * width + x].to_be_bytes(), new[y * width + x].to_be_bytes());
            let off = |k: usize| usize::from(old[k].abs_diff(new[k]));
            counts[4] = counts[4].max(off(1)).max(off(2)).max(off(3));
            counts[5] = counts[5].max(off(0));
        }
        if first < 16 {
            counts[1] += 1;
            if counts[2] == across * down {
                (counts[2], counts[3]) = (block, first);
            }
        }
    }
    counts
}

fn main() -> ExitCode {
    let seed = std::env::args().nth(1).map_or(1, |word| word.parse().expect("a number"));
    let mut random = Random(seed | 1 << 40);
    let mut differences = 0;
    for pair in &PAIRS {
        let (mut pictures, mut blocks, mut wrong, mut found) = (0, 0, 0, 0);
        let sizes = (0..100).map(|k| (k % 10, k / 10)).cycle().take(20_000);
        for (width, height) in sizes.chain([(4000, 4000), (4001, 1023), (3, 65536)]) {
            let n = usize::div_ceil(width, 4) * usize::div_ceil(height, 4);
            let data = random.blocks(n);
            let (due, got) = (crates_own(pair, &data, width, height), library(pair, &data, width, height));
            (pictures, blocks, wrong) = (pictures + 1, blocks + n, wrong + due[0]);
            if due != got {
                found += 1;
                eprintln!("{}: {width} by {height}: {got:?}, not {due:?}", pair.name);
            }
        }
        println!("{}: {pictures} pictures, {blocks} blocks, {wrong} wrong pixels, {found} differences", pair.name);
        differences += found;
    }
    if differences == 0 {
        ExitCode::SUCCESS
    } else {
        ExitCode::FAILURE
    }
}
