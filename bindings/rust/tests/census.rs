//! The two censuses through the Rust functions.
use yalivucu::typed::*;

/// Blocks of document 01's specimens, and of them with the bit turned.
const S1: [u8; 8] = [0; 8];
const S2: [u8; 8] = [4, 0, 0, 2, 0, 0, 0, 0];
const S3: [u8; 8] = [0, 4, 0, 2, 0, 0, 0, 0];
const S4: [u8; 8] = [0, 0, 4, 2, 0, 0, 0, 0x3f];
const S6: [u8; 8] = [0xf8, 0, 0, 2, 0, 0, 0, 0];
const CLEAR_T: [u8; 8] = [4, 0, 0, 0, 0, 0, 0, 0];
const CLEAR_PLANAR: [u8; 8] = [0, 0, 4, 0, 0, 0, 0, 0];

#[test]
fn counted_by_hand() {
    let data = [S1, S6, S2, S2, S3, S4, CLEAR_T, CLEAR_PLANAR].concat();
    let rgb = RgbCounts {
        individual: 3,
        differential: 1,
        t: 2,
        h: 1,
        planar: 1,
    };
    assert_eq!(census_etc2_rgb(&data, Picture::new(16, 8)), Ok(rgb));
    let opaque = KindCounts {
        differential: 1,
        t: 2,
        h: 1,
        planar: 1,
    };
    let clear = KindCounts {
        differential: 1,
        t: 1,
        h: 0,
        planar: 1,
    };
    assert_eq!(
        census_etc2_rgba1(&data, Picture::new(16, 8)),
        Ok(Rgba1Counts { opaque, clear })
    );
}

/// The first two of the blocks alone are in a picture of 5 by 1.
#[test]
fn leftover_bytes_are_not_counted() {
    let data = [S2, S2, S3, S4].concat();
    let counts = census_etc2_rgb(&data, Picture::new(5, 1)).unwrap();
    assert_eq!((counts.t, counts.h, counts.planar), (2, 0, 0));
    assert_eq!(census_etc2_rgb(&[], Picture::new(0, 9)), Ok(RgbCounts::default()));
    assert_eq!(
        census_etc2_rgba1(&data, Picture::new(65536, 0)),
        Ok(Rgba1Counts::default())
    );
}

#[test]
fn refusals() {
    for (width, height) in [(65537, 0), (0, 65537), (usize::MAX, usize::MAX)] {
        assert_eq!(
            census_etc2_rgb(&[], Picture::new(width, height)),
            Err(Refusal::TooLarge)
        );
        assert_eq!(
            census_etc2_rgba1(&[], Picture::new(width, height)),
            Err(Refusal::TooLarge)
        );
    }
    assert_eq!(census_etc2_rgb(&[0; 31], Picture::new(5, 5)), Err(Refusal::ShortData));
    assert_eq!(census_etc2_rgba1(&[0; 31], Picture::new(5, 5)), Err(Refusal::ShortData));
}

/// The strict reader refuses with 4 exactly where T, H and planar are not all 0.
#[test]
fn strict_refuses_what_is_counted() {
    for block in [S1, S2, S3, S4, S6, CLEAR_T] {
        let counts = census_etc2_rgb(&block, Picture::new(4, 4)).unwrap();
        let answer = read_strict(&block, Picture::new(4, 4), &mut [0; 16]);
        assert_eq!(answer.is_err(), counts.t + counts.h + counts.planar > 0);
    }
}
