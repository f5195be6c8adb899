//! The crate's names with the crate's types: texts for refusals, and a panic where it has no answer to give.
use std::panic::{catch_unwind, AssertUnwindSafe};
use yalivucu::*;

type Picture = fn(&[u8], usize, usize, &mut [u32]) -> Result<(), &'static str>;
type Block = fn(&[u8], &mut [u32]);
type Channel = fn(&[u8], usize, &mut [u32]);

const STOOD: u32 = 0x1111_1111;

const PICTURES: [(Picture, usize); 17] = [
    (decode_etc1, 8),
    (decode_etc2_rgb, 8),
    (decode_etc2_rgba1, 8),
    (decode_etc2_rgba8, 16),
    (decode_eacr, 8),
    (decode_eacr_signed, 8),
    (decode_eacrg, 16),
    (decode_eacrg_signed, 16),
    (decode_bc1, 8),
    (decode_bc1a, 8),
    (decode_bc3, 16),
    (decode_bc7, 16),
    (decode_bc2, 16),
    (decode_bc4, 8),
    (decode_bc4_signed, 8),
    (decode_bc5, 16),
    (decode_bc5_signed, 16),
];

type Pitched = fn(&[u8], usize, usize, usize, &mut [u32]) -> Result<(), &'static str>;

/// The twins that take a pitch, in the same order.
const PITCHED: [Pitched; 17] = [
    decode_etc1_pitched,
    decode_etc2_rgb_pitched,
    decode_etc2_rgba1_pitched,
    decode_etc2_rgba8_pitched,
    decode_eacr_pitched,
    decode_eacr_signed_pitched,
    decode_eacrg_pitched,
    decode_eacrg_signed_pitched,
    decode_bc1_pitched,
    decode_bc1a_pitched,
    decode_bc3_pitched,
    decode_bc7_pitched,
    decode_bc2_pitched,
    decode_bc4_pitched,
    decode_bc4_signed_pitched,
    decode_bc5_pitched,
    decode_bc5_signed_pitched,
];

const BLOCKS: [(Block, usize); 18] = [
    (decode_etc1_block, 8),
    (decode_etc2_rgb_block, 8),
    (decode_etc2_rgba1_block, 8),
    (decode_etc2_rgba8_block, 16),
    (decode_etc2_a8_block, 8),
    (decode_eacr_block, 8),
    (decode_eacr_signed_block, 8),
    (decode_eacrg_block, 16),
    (decode_eacrg_signed_block, 16),
    (decode_bc1_block, 8),
    (decode_bc1a_block, 8),
    (decode_bc3_block, 16),
    (decode_bc7_block, 16),
    (decode_bc2_block, 16),
    (decode_bc4_block, 8),
    (decode_bc4_signed_block, 8),
    (decode_bc5_block, 16),
    (decode_bc5_signed_block, 16),
];

const CHANNELS: [Channel; 3] = [decode_eac_block, decode_eac_signed_block, |data, channel, out| {
    decode_bc3_alpha(data, out, channel)
}];

#[test]
fn the_texts_of_refusals() {
    for (reader, size) in PICTURES {
        let mut image = [STOOD; 16];
        let data = vec![0; size];
        let large = "The width, the height or the pitch is above the limit!";
        assert_eq!(reader(&data, 65537, 0, &mut image), Err(large));
        assert_eq!(
            reader(&data[1..], 4, 4, &mut image[..15]),
            Err("Not enough data to decode image!")
        );
        assert_eq!(reader(&data, 4, 4, &mut image[..15]), Err("Image buffer is too small!"));
        assert_eq!(image, [STOOD; 16]);
        assert_eq!(reader(&data, 4, 4, &mut image), Ok(()));
    }
}

#[test]
fn with_a_pitch_each_paints_what_its_twin_paints() {
    for ((reader, size), pitched) in PICTURES.into_iter().zip(PITCHED) {
        let data: Vec<u8> = (0..4 * size).map(|k| (k * 37 + 11) as u8).collect();
        let mut image = [STOOD; 30];
        reader(&data, 5, 6, &mut image).unwrap();
        let mut same = [STOOD; 30];
        pitched(&data, 5, 6, 5, &mut same).unwrap();
        assert_eq!(image, same);
        let mut gaps = [STOOD; 48];
        pitched(&data, 5, 6, 8, &mut gaps).unwrap();
        for (row, gapped) in image.chunks(5).zip(gaps.chunks(8)) {
            assert_eq!(*row, gapped[..5]);
            assert_eq!(gapped[5..], [STOOD; 3]);
        }
        assert_eq!(pitched(&data, 5, 6, 4, &mut gaps), Err("The pitch is below the width!"));
    }
}

/// Calls a reader that must panic, and hands out what it said.
fn said(call: impl FnOnce()) -> String {
    let payload = catch_unwind(AssertUnwindSafe(call)).expect_err("this call must panic");
    payload.downcast_ref::<String>().expect("a sentence").clone()
}

#[test]
fn a_block_that_is_refused_panics_and_writes_nothing() {
    for (reader, size) in BLOCKS {
        let mut out = [STOOD; 16];
        let data = vec![0; size];
        assert!(said(|| reader(&data[1..], &mut out)).starts_with("Refusal 2"));
        assert!(said(|| reader(&data, &mut out[..15])).starts_with("Refusal 3"));
        assert_eq!(out, [STOOD; 16]);
        reader(&data, &mut out);
        assert_ne!(out, [STOOD; 16]);
    }
    for reader in CHANNELS {
        let mut out = [STOOD; 16];
        assert!(said(|| reader(&[0; 8], 4, &mut out)).starts_with("Refusal 5"));
        assert!(said(|| reader(&[0; 7], 3, &mut out)).starts_with("Refusal 2"));
        assert!(said(|| reader(&[0; 8], 3, &mut out[..15])).starts_with("Refusal 3"));
        assert_eq!(out, [STOOD; 16]);
    }
}
