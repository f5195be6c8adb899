//! The checks without an image, beside the readers that they answer as.
mod random;

use random::Random;
use yalivucu::typed::*;

type Check = fn(&[u8], usize, usize) -> Result<(), Refusal>;
type Read = fn(&[u8], Picture, &mut [u32]) -> Result<(), Refusal>;

const PAIRS: [(Check, Read); 2] = [(check_strict, read_strict), (check_opaque, read_opaque)];

/// Blocks whose difference bit, which is the opaque bit too, is mostly set, and of which few are out of range.
fn blocks(random: &mut Random, n: usize) -> Vec<u8> {
    let mut data = random.bytes(n * 8);
    for block in data.chunks_mut(8) {
        if random.below(8) > 0 {
            block[3] |= 2;
        }
        if random.below(8) > 0 {
            block[..3].fill(0x80);
        }
    }
    data
}

/// Every small size, with a byte too few, just enough, and a byte and a block too many.
#[test]
fn as_the_readers_answer() {
    let mut random = Random(38);
    let mut answers = std::collections::BTreeSet::new();
    for (width, height) in (0..10_usize).flat_map(|w| (0..10_usize).map(move |h| (w, h))) {
        let n = width.div_ceil(4) * height.div_ceil(4);
        for turn in 0..40 {
            let data = blocks(&mut random, n + 1);
            let lengths = [(n * 8).saturating_sub(1), n * 8, n * 8 + 1, n * 8 + 8];
            let data = &data[..lengths[turn % 4]];
            for (check, read) in PAIRS {
                let read = read(data, Picture::new(width, height), &mut vec![0; width * height]);
                assert_eq!(check(data, width, height), read);
                answers.insert(read.map_or_else(|refusal| refusal.number(), |()| 0));
            }
        }
    }
    assert_eq!(answers.into_iter().collect::<Vec<_>>(), [0, 2, 4, 6, 11]);
}

/// The first bad block is named, wherever it stands.
#[test]
fn the_first_of_two() {
    const T: [u8; 8] = [4, 0, 0, 2, 0, 0, 0, 0];
    const RED: [u8; 8] = [0xf8, 0, 0, 2, 0, 0, 0, 0];
    for first in 0..6 {
        let out_of_range: Vec<u8> = (0..6).flat_map(|k| if k < first { RED } else { T }).collect();
        assert_eq!(
            check_strict(&out_of_range, 9, 8),
            Err(Refusal::OutOfRange { block: first })
        );
        assert_eq!(check_opaque(&out_of_range, 9, 8), Ok(()));
        let clear: Vec<u8> = (0..6).flat_map(|k| if k < first { RED } else { [0; 8] }).collect();
        assert_eq!(check_opaque(&clear, 9, 8), Err(Refusal::NotOpaque { block: first }));
        assert_eq!(check_strict(&clear, 9, 8), Ok(()));
    }
}

#[test]
fn sizes_first() {
    for (width, height) in [(65537, 0), (0, 65537), (usize::MAX, usize::MAX), (1 << 32, 1 << 32)] {
        assert_eq!(check_strict(&[0; 9], width, height), Err(Refusal::TooLarge));
        assert_eq!(check_opaque(&[0; 9], width, height), Err(Refusal::TooLarge));
    }
    assert_eq!(check_strict(&[], 65536, 65536), Err(Refusal::ShortData));
    assert_eq!(check_opaque(&[], 65536, 65536), Err(Refusal::ShortData));
    assert_eq!(check_strict(&[], 65536, 0), Ok(()));
    assert_eq!(check_opaque(&[], 0, 65536), Ok(()));
}
