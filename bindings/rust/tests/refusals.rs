//! Every reader with wrong lengths and sizes, and with what is just enough.
use yalivucu::typed::*;

const STOOD: u32 = 0x1111_1111;

/// A reader of pictures, by its format or strict.
#[derive(Clone, Copy)]
enum Reader {
    Plain(Format),
    Strict,
}

impl Reader {
    fn all() -> impl Iterator<Item = Reader> {
        Format::ALL.into_iter().map(Reader::Plain).chain([Reader::Strict])
    }

    fn block_size(self) -> usize {
        match self {
            Reader::Plain(format) => format.block_size(),
            Reader::Strict => 8,
        }
    }

    /// What is answered where there are more bytes than the blocks need and nothing else is wrong.
    fn leftovers(self) -> Result<(), Refusal> {
        match self {
            Reader::Plain(_) => Ok(()),
            Reader::Strict => Err(Refusal::LongData),
        }
    }

    /// Reads with so many bytes and elements, and sees that pixels and nothing else changed: no gap, and
    /// in a refusal no element.
    fn read(self, bytes: usize, width: usize, height: usize, elements: usize) -> Result<(), Refusal> {
        self.read_pitched(bytes, width, height, width, elements)
    }

    fn read_pitched(
        self,
        bytes: usize,
        width: usize,
        height: usize,
        pitch: usize,
        elements: usize,
    ) -> Result<(), Refusal> {
        let mut image = vec![STOOD; elements];
        let data = vec![0; bytes];
        let picture = Picture::new(width, height).with_pitch(pitch);
        let answer = match self {
            Reader::Plain(format) => read(format, &data, picture, &mut image),
            Reader::Strict => read_strict(&data, picture, &mut image),
        };
        let is_pixel = |k: usize| answer.is_ok() && k % pitch.max(1) < width && k / pitch.max(1) < height;
        let kept = |(k, pixel): (usize, &u32)| is_pixel(k) == (*pixel != STOOD);
        assert!(image.iter().enumerate().all(kept));
        answer
    }
}

#[test]
fn every_size_of_data_and_image() {
    for reader in Reader::all() {
        for width in 0..10_usize {
            for height in 0..10_usize {
                let bytes = width.div_ceil(4) * height.div_ceil(4) * reader.block_size();
                let pixels = width * height;
                assert_eq!(reader.read(bytes, width, height, pixels), Ok(()));
                assert_eq!(reader.read(bytes, width, height, pixels + 5), Ok(()));
                assert_eq!(reader.read(bytes + 5, width, height, pixels + 5), reader.leftovers());
                if pixels > 0 {
                    assert_eq!(
                        reader.read(bytes - 1, width, height, pixels - 1),
                        Err(Refusal::ShortData)
                    );
                    assert_eq!(reader.read(bytes, width, height, pixels - 1), Err(Refusal::ShortImage));
                }
            }
        }
    }
}

#[test]
fn every_small_size_with_a_gap() {
    for reader in Reader::all() {
        for (width, height, gap) in (0..600_usize).map(|k| (k % 10, k / 10 % 10, k / 100)) {
            let pitch = width + gap;
            let bytes = width.div_ceil(4) * height.div_ceil(4) * reader.block_size();
            let elements = Picture::new(width, height).with_pitch(pitch).elements().unwrap();
            let read = |bytes, elements| reader.read_pitched(bytes, width, height, pitch, elements);
            assert_eq!(read(bytes, elements), Ok(()));
            assert_eq!(read(bytes, elements + 2 * pitch), Ok(()));
            assert_eq!(read(bytes + 5, elements + 2 * pitch), reader.leftovers());
            if elements > 0 {
                assert_eq!(read(bytes - 1, elements - 1), Err(Refusal::ShortData));
                assert_eq!(read(bytes, elements - 1), Err(Refusal::ShortImage));
            }
            if width > 0 {
                let short = reader.read_pitched(0, width, height, width - 1, 0);
                assert_eq!(short, Err(Refusal::ShortPitch));
            }
        }
    }
}

#[test]
fn the_largest_sizes() {
    for reader in Reader::all() {
        let size = reader.block_size();
        assert_eq!(reader.read(0, 65536, 0, 0), Ok(()));
        assert_eq!(reader.read(0, 0, 65536, 0), Ok(()));
        assert_eq!(reader.read(16384 * size, 65536, 1, 65536), Ok(()));
        assert_eq!(reader.read(16384 * size, 1, 65536, 65536), Ok(()));
        assert_eq!(reader.read_pitched(size, 4, 2, 65536, 65540), Ok(()));
        for (width, height) in [(65537, 0), (0, 65537), (usize::MAX, usize::MAX), (1 << 32, 1 << 32)] {
            assert_eq!(reader.read(64, width, height, 64), Err(Refusal::TooLarge));
        }
        for pitch in [65537, usize::MAX, 1 << 32] {
            assert_eq!(reader.read_pitched(64, 4, 0, pitch, 64), Err(Refusal::TooLarge));
        }
        assert_eq!(reader.read_pitched(64, 65537, 1, 3, 64), Err(Refusal::TooLarge));
        assert_eq!(reader.read_pitched(64, 4, 0, 3, 64), Err(Refusal::ShortPitch));
        assert_eq!(reader.read(64, 65536, 65536, 64), Err(Refusal::ShortData));
    }
}

#[test]
fn what_a_picture_needs() {
    assert_eq!(Picture::new(5, 5).bytes(Format::Etc1), Some(32));
    assert_eq!(Picture::new(5, 5).bytes(Format::Etc2Rgba8), Some(64));
    assert_eq!(Picture::new(5, 5).elements(), Some(25));
    assert_eq!(Picture::new(usize::MAX, usize::MAX).bytes(Format::Etc1), None);
    assert_eq!(Picture::new(usize::MAX, 2).elements(), None);
    assert_eq!(Picture::new(5, 0).with_pitch(8).elements(), Some(0));
    assert_eq!(Picture::new(2, 3).with_pitch(usize::MAX).elements(), None);
}

#[test]
fn block_readers() {
    type Block = Box<dyn Fn(&[u8], &mut [u32]) -> Result<(), Refusal>>;
    let of_formats = Format::ALL.into_iter().map(|format| -> (Block, usize) {
        (
            Box::new(move |data, out| read_block(format, data, out)),
            format.block_size(),
        )
    });
    for (reader, size) in of_formats.chain([(Box::new(read_alpha) as Block, 8)]) {
        let mut out = [STOOD; 20];
        assert_eq!(reader(&vec![0; size - 1], &mut out[..15]), Err(Refusal::ShortData));
        assert_eq!(reader(&vec![0; size], &mut out[..15]), Err(Refusal::ShortImage));
        assert_eq!(out, [STOOD; 20]);
        assert_eq!(reader(&vec![0; size], &mut out), Ok(()));
        assert!(out[..16].iter().all(|pixel| *pixel != STOOD));
        assert_eq!(out[16..], [STOOD; 4]);
    }
}

#[test]
fn channels() {
    for reader in [read_channel, read_channel_signed] {
        let mut out = [STOOD; 20];
        for channel in [4, 5, usize::MAX] {
            assert_eq!(reader(&[], channel, &mut out[..3]), Err(Refusal::NoChannel));
        }
        assert_eq!(reader(&[0; 7], 3, &mut out[..15]), Err(Refusal::ShortData));
        assert_eq!(reader(&[0; 8], 3, &mut out[..15]), Err(Refusal::ShortImage));
        assert_eq!(out, [STOOD; 20]);
        assert_eq!(reader(&[0xff, 0, 0, 0, 0, 0, 0, 0], 0, &mut out), Ok(()));
        assert!(out[..16].iter().all(|pixel| pixel >> 8 == STOOD >> 8));
        assert_eq!(out[16..], [STOOD; 4]);
    }
}

#[test]
fn strict_names_the_first_block() {
    // blocks 2 and 3 of four have a red sum of -4
    let mut data = [0; 32];
    data[16..20].copy_from_slice(&[0x04, 0, 0, 0x02]);
    data[24..28].copy_from_slice(&[0x04, 0, 0, 0x02]);
    let mut image = [STOOD; 25];
    let refused = read_strict(&data, Picture::new(5, 5), &mut image);
    assert_eq!(refused, Err(Refusal::OutOfRange { block: 2 }));
    assert_eq!(image, [STOOD; 25]);
    assert_eq!(read(Format::Etc1, &data, Picture::new(5, 5), &mut image), Ok(()));
}

#[test]
fn opaque_names_the_first_block() {
    // blocks 2 and 3 of four have their opaque bit clear; then none has, and a clear one follows
    let mut data = [[0xf8, 0, 0, 2, 0, 0, 0, 0]; 5].concat();
    (data[19], data[27], data[35]) = (0, 0, 0);
    let mut image = [STOOD; 25];
    let refused = read_opaque(&data, Picture::new(5, 5), &mut image);
    assert_eq!(refused, Err(Refusal::NotOpaque { block: 2 }));
    assert_eq!(
        read_opaque(&data, Picture::new(5, 5), &mut image[..24]),
        Err(Refusal::ShortImage)
    );
    assert_eq!(
        read_opaque(&data[..31], Picture::new(5, 5), &mut image),
        Err(Refusal::ShortData)
    );
    assert_eq!(
        read_opaque(&data[..31], Picture::new(5, 5).with_pitch(4), &mut image),
        Err(Refusal::ShortPitch)
    );
    assert_eq!(image, [STOOD; 25]);
    (data[19], data[27]) = (2, 2);
    assert_eq!(read_opaque(&data, Picture::new(5, 5), &mut image), Ok(()));
    for format in [Format::Etc2Rgb, Format::Etc2Rgba1] {
        let mut other = [STOOD; 25];
        assert_eq!(read(format, &data, Picture::new(5, 5), &mut other), Ok(()));
        assert_eq!(image, other);
    }
}

#[test]
fn strict_leaves_nothing_over() {
    // a block in range, and a second one that is not
    let mut data = [0; 16];
    data[8..12].copy_from_slice(&[0x04, 0, 0, 0x02]);
    let mut image = [STOOD; 16];
    for more in [1, 7, 8] {
        let refused = read_strict(&data[..8 + more], Picture::new(4, 4), &mut image);
        assert_eq!(refused, Err(Refusal::LongData));
        let refused = read_strict(&data[..8 + more], Picture::new(4, 4), &mut image[..15]);
        assert_eq!(refused, Err(Refusal::LongData));
    }
    assert_eq!(
        read_strict(&data[..1], Picture::new(0, 4), &mut image),
        Err(Refusal::LongData)
    );
    assert_eq!(image, [STOOD; 16]);
    assert_eq!(read(Format::Etc1, &data, Picture::new(4, 4), &mut image), Ok(()));
    assert_eq!(read_strict(&data[..8], Picture::new(4, 4), &mut image), Ok(()));
}

#[test]
fn refusals_say_what_is_wrong() {
    for (refusal, sentence) in [
        (
            Refusal::TooLarge,
            "Refusal 1: the width, the height or the pitch is above the limit.",
        ),
        (Refusal::ShortData, "Refusal 2: there are too few bytes for the blocks."),
        (Refusal::ShortImage, "Refusal 3: the image or the room is too short."),
        (
            Refusal::OutOfRange { block: 7 },
            "Refusal 4: an ETC1 block has a sum out of range, the first of them block 7.",
        ),
        (Refusal::NoChannel, "Refusal 5: the channel is above 3."),
        (
            Refusal::LongData,
            "Refusal 6: there are more bytes than the blocks need.",
        ),
        (
            Refusal::NotOpaque { block: 3 },
            "Refusal 11: an RGBA1 block has its opaque bit clear, the first of them block 3.",
        ),
        (Refusal::ShortPitch, "Refusal 12: the pitch is below the width."),
    ] {
        assert_eq!(refusal.to_string(), sentence);
    }
}

/// A refusal is an error like any other.
#[test]
fn refusals_are_errors() {
    fn viewer(image: &mut [u32]) -> Result<(), Box<dyn std::error::Error>> {
        read(Format::Etc1, &[0; 8], Picture::new(4, 4), image)?;
        Ok(())
    }
    assert!(viewer(&mut [0; 16]).is_ok());
    assert_eq!(
        viewer(&mut [0; 15]).unwrap_err().to_string(),
        Refusal::ShortImage.to_string()
    );
}
