//! Pictures in pieces beside the plain reader: cut at random thousands of times, ended early, and refused.
mod random;

use random::Random;
use yalivucu::typed::{read, Format, Picture, Pieces, Refusal, Taken};

const STOOD: u32 = 0x1111_1111;

impl Random {
    /// A length of a piece: one of those around a block, or any up to so many.
    fn length(&mut self, most: usize) -> usize {
        match self.below(8) {
            k @ 0..=5 => [0, 1, 7, 15, 16, 17][k],
            _ => self.below(most + 1),
        }
    }
}

/// What the plain reader shows of the blocks below a number, over an image of so many elements.
fn finished(format: Format, data: &[u8], picture: Picture, elements: usize, blocks: usize) -> Vec<u32> {
    let mut whole = vec![STOOD; elements];
    read(format, data, picture, &mut whole).unwrap();
    for (k, element) in whole.iter_mut().enumerate() {
        let (x, y) = (k % picture.pitch.max(1), k / picture.pitch.max(1));
        if y / 4 * picture.width.div_ceil(4) + x / 4 >= blocks {
            *element = STOOD;
        }
    }
    whole
}

/// One course: after each piece exactly the blocks that are whole are painted, and no other element has changed.
fn course(format: Format, picture: Picture, random: &mut Random) {
    let all = picture.bytes(format).unwrap();
    let more = random.below(20);
    let data = random.bytes(all + more);
    let elements = picture.elements().unwrap() + random.below(5);
    let mut image = vec![STOOD; elements];
    let mut pieces = Pieces::start(format, picture, &image).unwrap();
    let (mut at, mut painted, mut unused) = (0, 0, 0);
    while at < data.len() {
        let n = random.length(data.len()).min(data.len() - at);
        let taken = pieces.take(&data[at..at + n], &mut image).unwrap();
        at += n;
        painted += taken.painted;
        unused += taken.unused;
        assert_eq!(painted, at.min(all) / format.block_size());
        assert_eq!(unused, at - at.min(all));
        assert_eq!(image, finished(format, &data, picture, elements, painted));
        let due = if at < all { Err(Refusal::ShortData) } else { Ok(()) };
        assert_eq!(pieces.end(), due);
    }
}

#[test]
fn thousands_of_cuts_show_what_the_plain_reader_shows() {
    let mut random = Random(1);
    for format in Format::ALL {
        for _ in 0..600 {
            let picture = Picture::new(random.below(14), random.below(10));
            let picture = picture.with_pitch(picture.width + random.below(4));
            course(format, picture, &mut random);
        }
    }
}

#[test]
fn pieces_of_one_length_each_show_the_same() {
    let mut random = Random(2);
    let picture = Picture::new(9, 6).with_pitch(10);
    for format in Format::ALL {
        let data = random.bytes(picture.bytes(format).unwrap());
        let whole = finished(format, &data, picture, 60, 6);
        for length in 1..=data.len() {
            let mut image = vec![STOOD; 60];
            let mut pieces = Pieces::start(format, picture, &image).unwrap();
            let painted: usize = data
                .chunks(length)
                .map(|piece| pieces.take(piece, &mut image).unwrap().painted)
                .sum();
            assert_eq!((painted, &image, pieces.end()), (6, &whole, Ok(())));
        }
    }
}

#[test]
fn starting_refuses_in_its_order() {
    let start = |width, height, pitch, elements| {
        Pieces::start(
            Format::EacRg,
            Picture::new(width, height).with_pitch(pitch),
            &vec![STOOD; elements],
        )
        .err()
    };
    assert_eq!(start(65537, 1, 4, 0), Some(Refusal::TooLarge));
    assert_eq!(start(1, 65537, 0, 0), Some(Refusal::TooLarge));
    assert_eq!(start(1, 1, 65537, 0), Some(Refusal::TooLarge));
    assert_eq!(start(5, 2, 4, 0), Some(Refusal::ShortPitch));
    assert_eq!(start(5, 2, 7, 11), Some(Refusal::ShortImage));
    assert_eq!(start(5, 2, 7, 12), None);
    assert_eq!(start(65536, 0, 65536, 0), None);
}

#[test]
fn a_refused_piece_takes_and_changes_nothing() {
    let mut image = [STOOD; 16];
    let mut pieces = Pieces::start(Format::Etc2Rgba8, Picture::new(4, 4), &image).unwrap();
    assert_eq!(pieces.take(&[0; 15], &mut image), Ok(Taken { painted: 0, unused: 0 }));
    let before = pieces.clone();
    assert_eq!(pieces.take(&[0; 9], &mut image[..15]), Err(Refusal::ShortImage));
    assert_eq!((&pieces, image), (&before, [STOOD; 16]));
    assert_eq!(pieces.take(&[], &mut image), Ok(Taken { painted: 0, unused: 0 }));
    assert_eq!(pieces, before);
    assert_eq!(pieces.take(&[0; 9], &mut image), Ok(Taken { painted: 1, unused: 8 }));
    assert_eq!((pieces.end(), image), (Ok(()), [0x0002_0202; 16]));
}
