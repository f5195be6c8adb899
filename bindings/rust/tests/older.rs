//! What an older viewer shows wrong, beside a count of the pictures that the two readers paint.
mod random;

use random::Random;
use yalivucu::typed::*;

type Older = fn(&[u8], Picture) -> Result<OlderCounts, Refusal>;
type Check = fn(&[u8], usize, usize) -> Result<(), Refusal>;

const PAIRS: [(Older, Check, Format, Format); 2] = [
    (older_etc1, check_strict, Format::Etc1, Format::Etc2Rgb),
    (older_rgb, check_opaque, Format::Etc2Rgb, Format::Etc2Rgba1),
];

/// Two pictures, pixel by pixel.
fn compared(old: Format, new: Format, data: &[u8], picture: Picture) -> OlderCounts {
    let painted = |format| {
        let mut image = vec![0; picture.width * picture.height];
        read(format, data, picture, &mut image).unwrap();
        image
    };
    let (old, new) = (painted(old), painted(new));
    let across = picture.width.div_ceil(4);
    let mut wrong: Vec<(OlderPixel, [u8; 4])> = (0..old.len())
        .filter(|&at| old[at] != new[at])
        .map(|at| {
            let (x, y) = (at % picture.width, at / picture.width);
            let pixel = OlderPixel {
                block: y / 4 * across + x / 4,
                place: y % 4 * 4 + x % 4,
            };
            let (old, new) = (old[at].to_be_bytes(), new[at].to_be_bytes());
            (pixel, std::array::from_fn(|k| old[k].abs_diff(new[k])))
        })
        .collect();
    wrong.sort_by_key(|(pixel, _)| (pixel.block, pixel.place));
    let mut blocks: Vec<usize> = wrong.iter().map(|(pixel, _)| pixel.block).collect();
    blocks.dedup();
    OlderCounts {
        pixels: wrong.len(),
        blocks: blocks.len(),
        first: wrong.first().map(|(pixel, _)| *pixel),
        colour: wrong.iter().flat_map(|(_, off)| off[1..].to_vec()).max().unwrap_or(0),
        alpha: wrong.iter().map(|(_, off)| off[0]).max().unwrap_or(0),
    }
}

/// Blocks of which some are in range and opaque.
fn blocks(random: &mut Random, n: usize) -> Vec<u8> {
    let mut data = random.bytes(n * 8);
    for block in data.chunks_mut(8) {
        match random.below(4) {
            0 => block[3] |= 2,
            1 => block[3] &= !2,
            2 => block[..4].copy_from_slice(&[0x80, 0x80, 0x80, 2]),
            _ => {}
        }
    }
    data
}

#[test]
fn as_the_pictures_differ() {
    let mut random = Random(42);
    let (mut some, mut none) = (0, 0);
    for (width, height) in (0..10_usize).flat_map(|w| (0..10_usize).map(move |h| (w, h))) {
        let n = width.div_ceil(4) * height.div_ceil(4);
        for _ in 0..20 {
            let data = blocks(&mut random, n + 1);
            let picture = Picture::new(width, height);
            for (older, check, old, new) in PAIRS {
                let due = compared(old, new, &data[..n * 8], picture);
                assert_eq!(older(&data, picture), Ok(due), "{width} by {height}");
                match check(&data[..n * 8], width, height) {
                    Ok(()) => assert_eq!(due.pixels, 0),
                    Err(Refusal::OutOfRange { block } | Refusal::NotOpaque { block }) => {
                        assert!(due.first.iter().all(|pixel| block <= pixel.block))
                    }
                    Err(other) => panic!("{other}"),
                }
                if due.pixels > 0 {
                    some += 1
                } else {
                    none += 1
                }
            }
        }
    }
    assert!(some > 1000 && none > 500, "{some} with a wrong pixel, {none} without");
}

/// Refused, though no pixel of it is wrong.
#[test]
fn refused_though_right() {
    let nothing = OlderCounts {
        pixels: 0,
        blocks: 0,
        first: None,
        colour: 0,
        alpha: 0,
    };
    let t = [0xfb, 0x33, 0x30, 0x1f, 0xcc, 0xcc, 0xcc, 0xcc];
    assert_eq!(check_strict(&t, 4, 4), Err(Refusal::OutOfRange { block: 0 }));
    assert_eq!(older_etc1(&t, Picture::new(4, 4)), Ok(nothing));
    let white = [255, 255, 255, 252, 0, 0, 255, 255];
    assert_eq!(check_opaque(&white, 4, 4), Err(Refusal::NotOpaque { block: 0 }));
    assert_eq!(older_rgb(&white, Picture::new(4, 4)), Ok(nothing));
}

#[test]
fn refusals() {
    for (older, ..) in PAIRS {
        for (width, height) in [(65537, 0), (0, 65537), (usize::MAX, usize::MAX)] {
            assert_eq!(older(&[], Picture::new(width, height)), Err(Refusal::TooLarge));
        }
        assert_eq!(older(&[0; 7], Picture::new(4, 4)), Err(Refusal::ShortData));
        assert_eq!(older(&[], Picture::new(65536, 65536)), Err(Refusal::ShortData));
        assert!(older(&[], Picture::new(65536, 0)).is_ok());
    }
}
