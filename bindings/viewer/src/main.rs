//! A viewer's code, written for the crate and for nothing else: every way of calling it that a
//! program may use. bindings/viewer/run builds it twice, over the crate's own files and over
//! ours under the crate's name, and compares what the two print.
use std::error::Error;
use texture2ddecoder as decoder;
use texture2ddecoder::*;

type Reader = fn(&[u8], usize, usize, &mut [u32]) -> Result<(), &'static str>;
type BlockReader = fn(&[u8], &mut [u32]);

/// A table of function pointers, with the bytes of a block.
const READERS: [(&str, Reader, usize); 15] = [
    ("etc1", decode_etc1, 8),
    ("etc2_rgb", decode_etc2_rgb, 8),
    ("etc2_rgba1", decode_etc2_rgba1, 8),
    ("etc2_rgba8", decode_etc2_rgba8, 16),
    ("eacr", decode_eacr, 8),
    ("eacr_signed", decode_eacr_signed, 8),
    ("eacrg", decode_eacrg, 16),
    ("eacrg_signed", decode_eacrg_signed, 16),
    ("bc1", decode_bc1, 8),
    ("bc1a", decode_bc1a, 8),
    ("bc3", decode_bc3, 16),
    ("bc7", decode_bc7, 16),
    ("bc2", decode_bc2, 16),
    ("bc4", decode_bc4, 8),
    ("bc5", decode_bc5, 16),
];

static BLOCK_READERS: &[(&str, BlockReader, usize)] = &[
    ("etc1_block", decode_etc1_block, 8),
    ("etc2_rgb_block", decode_etc2_rgb_block, 8),
    ("etc2_rgba1_block", decode_etc2_rgba1_block, 8),
    ("etc2_rgba8_block", decode_etc2_rgba8_block, 16),
    ("etc2_a8_block", decode_etc2_a8_block, 8),
    ("eacr_block", decode_eacr_block, 8),
    ("eacr_signed_block", decode_eacr_signed_block, 8),
    ("eacrg_block", decode_eacrg_block, 16),
    ("eacrg_signed_block", decode_eacrg_signed_block, 16),
    ("bc1_block", decode_bc1_block, 8),
    ("bc1a_block", decode_bc1a_block, 8),
    ("bc3_block", decode_bc3_block, 16),
    ("bc7_block", decode_bc7_block, 16),
    ("bc2_block", decode_bc2_block, 16),
    ("bc4_block", decode_bc4_block, 8),
    ("bc5_block", decode_bc5_block, 16),
];

const CHANNEL_READERS: [(&str, fn(&[u8], usize, &mut [u32])); 2] = [
    ("eac_block", decoder::decode_eac_block),
    ("eac_signed_block", decoder::decode_eac_signed_block),
];

/// Handed on as it is.
fn direct(data: &[u8], width: usize, height: usize, image: &mut [u32]) -> Result<(), &'static str> {
    return decode_etc1(data, width, height, image);
}

/// `?` into the text itself.
fn into_text(data: &[u8], image: &mut [u32]) -> Result<usize, &'static str> {
    decode_etc2_rgb(data, 4, 4, image)?;
    Ok(image.len())
}

/// `?` into a String.
fn into_string(data: &[u8], image: &mut [u32]) -> Result<usize, String> {
    decode_etc2_rgba8(data, 4, 4, image)?;
    Ok(image.len())
}

/// `?` into any error.
fn into_error(data: &[u8], image: &mut [u32]) -> Result<usize, Box<dyn Error>> {
    texture2ddecoder::decode_eacr(data, 4, 4, image)?;
    Ok(image.len())
}

/// A reader picked by name, called by value and through a closure.
fn picked(name: &str) -> Option<Box<dyn Fn(&[u8], usize, usize, &mut [u32]) -> Result<(), &'static str>>> {
    let (_, reader, _) = READERS.iter().find(|row| row.0 == name)?;
    Some(Box::new(move |data, width, height, image| {
        reader(data, width, height, image).map_err(|text: &'static str| text)
    }))
}

/// The same bytes for both builds: xorshift.
struct Random(u64);

impl Random {
    fn next(&mut self) -> u64 {
        self.0 ^= self.0 << 13;
        self.0 ^= self.0 >> 7;
        self.0 ^= self.0 << 17;
        self.0
    }

    fn byte(&mut self) -> u8 {
        (self.next() >> 24) as u8
    }
}

/// Blocks of 8 bytes on which the listed differences do not show: an EAC block that reads the
/// same in both orders of its index bytes, and no signed base of 80 hex; of BC2 and BC3 the first colour is
/// above the second. Any other block is free.
fn blocks(random: &mut Random, bytes: usize, name: &str) -> Vec<u8> {
    let is_eac = name.starts_with("eac");
    let mut data: Vec<u8> = (0..bytes).map(|_| random.byte()).collect();
    for block in data.chunks_exact_mut(16).filter(|_| name.starts_with("bc2") || name.starts_with("bc3")) {
        block[9] |= 0x80;
        block[11] &= 0x7f;
    }
    for block in data.chunks_exact_mut(8).filter(|_| is_eac) {
        if block[0] == 0x80 {
            block[0] = 0x81;
        }
        block[5] = block[2];
        block[4] = block[3];
        block[6] = block[1];
        block[7] = block[0];
    }
    data
}

/// Prints an answer and an image; a transparent RGBA1 pixel is shown as 0, which is a listed difference.
fn show(what: &str, answer: Result<(), &str>, image: &[u32], is_punched: bool) {
    print!("{what} {answer:?}");
    for pixel in image {
        let shown = if is_punched && pixel >> 24 == 0 { 0 } else { *pixel };
        print!(" {shown:08x}");
    }
    println!();
}

fn pictures(random: &mut Random) {
    for (name, reader, size) in READERS {
        for width in 0..10_usize {
            for height in 0..10_usize {
                let need = width.div_ceil(4) * height.div_ceil(4) * size;
                let data = blocks(random, need, name);
                let mut image = vec![0x1111_1111; width * height + 3];
                let told = reader(&data, width, height, &mut image);
                show(name, told, &image, name == "etc2_rgba1");
                if width * height > 0 {
                    let less = width * height - 1;
                    show(name, reader(&data[1..], width, height, &mut image), &image, name == "etc2_rgba1");
                    show(name, reader(&data, width, height, &mut image[..less]), &image, name == "etc2_rgba1");
                }
            }
        }
    }
}

fn single_blocks(random: &mut Random) {
    for (name, reader, size) in BLOCK_READERS {
        for _ in 0..1000 {
            let data = blocks(random, *size, name);
            // the crate's reader of a BC3 block runs on past element 15, which is a listed difference
            let end = if *name == "bc3_block" { 16 } else { 20 };
            let mut image = [0x0011_1111; 20];
            reader(&data, &mut image[..end]);
            show(name, Ok(()), &image, *name == "etc2_rgba1_block");
        }
    }
    for (name, reader) in CHANNEL_READERS {
        for turn in 0..1000 {
            let data = blocks(random, 8, name);
            let mut image = [0x0102_0304; 20];
            reader(&data, turn % 4, &mut image);
            show(name, Ok(()), &image, false);
        }
    }
}

fn main() {
    let mut random = Random(0x5eed_5eed_5eed_5eed);
    pictures(&mut random);
    single_blocks(&mut random);
    let mut image = [0; 16];
    for bytes in [7, 8, 15, 16] {
        let data = vec![0x24; bytes];
        println!("direct {:?}", direct(&data, 4, 4, &mut image));
        println!("text {:?}", into_text(&data, &mut image));
        println!("string {:?}", into_string(&data, &mut image));
        println!("error {:?}", into_error(&data, &mut image).map_err(|error| error.to_string()));
        println!("picked {:?}", picked("eacrg").map(|reader| reader(&data, 4, 4, &mut image)));
    }
}
