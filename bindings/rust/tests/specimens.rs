//! Specimens of document 01 through the Rust functions.
use yalivucu::typed::{read_strict, Picture};
use yalivucu::*;

/// Bytes, and 0 after them.
fn block(bytes: &[u8]) -> [u8; 8] {
    let mut block = [0; 8];
    block[..bytes.len()].copy_from_slice(bytes);
    block
}

#[test]
fn colours() {
    let mut image = [0; 16];
    decode_etc2_rgba1(&block(&[]), 4, 4, &mut image).unwrap();
    assert_eq!(image, [0xff000000; 16]); // S1
    decode_etc2_rgb(&block(&[4, 0, 0, 2]), 4, 4, &mut image).unwrap();
    assert_eq!(image, [0xff000000; 16]); // S2
    decode_etc2_rgb(&block(&[0, 4, 0, 2]), 4, 4, &mut image).unwrap();
    assert_eq!(image, [0xff060606; 16]); // S3
    decode_etc2_rgb_block(&block(&[0, 0, 4, 2, 0, 0, 0, 0x3f]), &mut image);
    assert_eq!(
        image.map(|pixel| pixel & 0xff)[..]
            .chunks(4)
            .map(|row| row[3])
            .collect::<Vec<_>>(),
        [0, 64, 128, 191]
    ); // S4
    decode_etc2_rgba1(&block(&[0x80, 0, 0, 0, 0xff, 0xff]), 4, 4, &mut image).unwrap();
    assert_eq!(image, [0; 16]); // S5
}

#[test]
fn alpha_and_channels() {
    for (bytes, alpha) in [([0x80, 0x10], 0x7d), ([0x80, 0], 0x80), ([2, 0x10], 0)] {
        let mut out = [0xff123456; 16];
        decode_etc2_a8_block(&block(&bytes), &mut out);
        assert_eq!(out, [alpha << 24 | 0x123456; 16]); // S10 to S12
    }
    let mut image = [0; 16];
    decode_eacr(&block(&[0x80, 0x10]), 4, 4, &mut image).unwrap();
    assert_eq!(image, [0xff7d0000; 16]); // S13
    decode_eacr_signed(&block(&[0, 0x10]), 4, 4, &mut image).unwrap();
    assert_eq!(image, [0xff7c0000; 16]); // S15
    let mut out = [0x11000000; 16];
    decode_eac_block(&block(&[0x80, 0]), 1, &mut out);
    assert_eq!(out, [0x11008000; 16]);
}

#[test]
fn strict() {
    for (first, accepted) in [(0xf8, true), (0xf9, false), (0x24, true), (0x1c, false)] {
        let answer = read_strict(&block(&[first, 0, 0, 2]), Picture::new(4, 4), &mut [0; 16]);
        assert_eq!(answer.is_ok(), accepted); // S6 to S9
    }
}

#[test]
fn a_clipped_picture() {
    let data = [block(&[4, 0, 0, 2]), block(&[])].concat();
    let mut image = [0x11111111; 6];
    decode_etc1(&data, 5, 1, &mut image).unwrap();
    assert_eq!(
        image,
        [0xff020202, 0xff020202, 0xffe90202, 0xffe90202, 0xff020202, 0x11111111]
    ); // S16
}
