//! The checker and the baker of ETC1 blocks through the Rust functions.
use yalivucu::typed::*;

/// The tiles, blocks and largest differences are those of two rows that oracle/bake printed.
const ROWS: [([u8; 3], [u8; 3], bool, [u32; 16], [u8; 8], u32); 2] = [
    (
        [0xf, 0xb, 0x9],
        [0x4, 0xa, 0xb],
        true,
        [
            0xabd5cb72, 0x22ffd283, 0x1ecaa3d0, 0x53ffff4a, 0x3effbb9a, 0xcbf6b971, 0x6fffbb97, 0x13ffba9d, 0x5c449ca4,
            0x9d35aadb, 0xd43db7b3, 0x7b985168, 0x9c4ac3c9, 0x87aea6ac, 0x0e38a2c6, 0xf746a9b9,
        ],
        [0xf4, 0xba, 0x9b, 0x01, 0xcf, 0xa5, 0x4d, 0x2d],
        108,
    ),
    (
        [0xf, 0x0, 0xf],
        [0xf, 0x0, 0xf],
        false,
        [0x96ff00ff; 16],
        [0xff, 0x00, 0xff, 0x00, 0x00, 0x00, 0x00, 0x00],
        2,
    ),
];

#[test]
fn baked_and_accepted_from_the_largest_difference_on() {
    for (first, second, flip, tile, bytes, most) in ROWS {
        let mut room = [0xee; 10];
        bake_etc1_block(first, second, flip, &tile, &mut room).unwrap();
        assert_eq!((&room[..8], &room[8..]), (&bytes[..], &[0xee, 0xee][..]));
        assert_eq!(check_etc1_block(&room, &tile, most), Ok(true));
        assert_eq!(check_etc1_block(&room, &tile, u32::MAX), Ok(true));
        assert_eq!(check_etc1_block(&room, &tile, most - 1), Ok(false));
    }
}

/// What the plain reader shows of a baked block is what the checker saw.
#[test]
fn read_back() {
    for (first, second, flip, tile, _, most) in ROWS {
        let (mut block, mut image) = ([0; 8], [0; 16]);
        bake_etc1_block(first, second, flip, &tile, &mut block).unwrap();
        read_block(Format::Etc1, &block, &mut image).unwrap();
        assert_eq!(check_etc1_block(&block, &image, 0), Ok(true));
        let far = |a: u32, b: u32| {
            (0..3)
                .map(|k| ((a >> (8 * k)) & 255).abs_diff((b >> (8 * k)) & 255))
                .max()
                .unwrap()
        };
        assert_eq!(image.iter().zip(&tile).map(|(a, b)| far(*a, *b)).max(), Some(most));
    }
}

/// The red sum of this block is -4, so no tolerance is enough.
#[test]
fn out_of_range_is_not_accepted() {
    let block = [4, 0, 0, 2, 0, 0, 0, 0];
    assert_eq!(check_etc1_block(&block, &[0; 16], u32::MAX), Ok(false));
}

#[test]
fn refused_in_order_and_nothing_written() {
    let mut room = [0xee; 8];
    for (at, channel) in [(0, 16), (1, 255), (2, 16), (3, 16), (4, 16), (5, 255)] {
        let mut bases = [15; 6];
        bases[at] = channel;
        let [a, b, c, d, e, f] = bases;
        assert_eq!(
            bake_etc1_block([a, b, c], [d, e, f], true, &[], &mut []),
            Err(Refusal::NoBase)
        );
    }
    let black = [0; 3];
    assert_eq!(
        bake_etc1_block(black, black, true, &[0; 15], &mut room[..7]),
        Err(Refusal::ShortData)
    );
    assert_eq!(
        bake_etc1_block(black, black, true, &[0; 15], &mut room),
        Err(Refusal::ShortImage)
    );
    assert_eq!(room, [0xee; 8]);
    assert_eq!(check_etc1_block(&[0; 7], &[0; 15], 0), Err(Refusal::ShortData));
    assert_eq!(check_etc1_block(&[0; 8], &[0; 15], 0), Err(Refusal::ShortImage));
    assert_eq!(Refusal::NoBase.number(), 16);
}
