//! Pictures in bands beside the plain readers: of random sizes and pitches, cut at random, accepted and refused; every
//! answer and every element must be the plain reader's.
#![cfg(feature = "std")]
mod random;

use random::Random;
use yalivucu::typed::*;

impl Random {
    /// Up to five numbers of rows, bands of none among them; together often fewer than the picture has, or more.
    fn cuts(&mut self) -> Vec<usize> {
        (0..self.below(6)).map(|_| self.below(4)).collect()
    }

    fn picture(&mut self) -> Picture {
        let picture = Picture::new(self.below(22), self.below(50));
        picture.with_pitch(picture.width + self.below(3) * self.below(4))
    }
}

/// A picture reader.
#[derive(Clone, Copy, Debug)]
enum Reader {
    Plain(Format),
    Strict,
    Opaque,
}

impl Reader {
    fn all() -> impl Iterator<Item = Reader> {
        Format::ALL
            .into_iter()
            .map(Reader::Plain)
            .chain([Reader::Strict, Reader::Opaque])
    }

    fn format(self) -> Format {
        match self {
            Reader::Plain(format) => format,
            Reader::Strict => Format::Etc1,
            Reader::Opaque => Format::Etc2Rgba1,
        }
    }

    fn read(self, data: &[u8], picture: Picture, image: &mut [u32]) -> Result<(), Refusal> {
        match self {
            Reader::Plain(format) => read(format, data, picture, image),
            Reader::Strict => read_strict(data, picture, image),
            Reader::Opaque => read_opaque(data, picture, image),
        }
    }

    fn read_in_bands(self, data: &[u8], picture: Picture, image: &mut [u32], rows: &[usize]) -> Result<(), Refusal> {
        match self {
            Reader::Plain(format) => read_in_bands(format, data, picture, image, rows),
            Reader::Strict => read_strict_in_bands(data, picture, image, rows),
            Reader::Opaque => read_opaque_in_bands(data, picture, image, rows),
        }
    }

    /// Blocks that the readers of older viewers accept; any bytes for the others.
    fn accepted(self, random: &mut Random, bytes: usize) -> Vec<u8> {
        let mut data = random.bytes(bytes);
        for block in data.chunks_mut(8) {
            match (self, block) {
                (Reader::Strict, [_, _, _, bits, ..]) => *bits &= !2,
                (Reader::Opaque, [_, _, _, bits, ..]) => *bits |= 2,
                _ => (),
            }
        }
        data
    }

    /// One call of each: the same answer, and the same image.
    fn same(self, data: &[u8], picture: Picture, elements: usize, rows: &[usize]) -> Result<(), Refusal> {
        let stood: Vec<u32> = (0..elements as u32).map(|k| 0x1111_1111 ^ k).collect();
        let (mut plain, mut bands) = (stood.clone(), stood.clone());
        let answer = self.read(data, picture, &mut plain);
        let told = self.read_in_bands(data, picture, &mut bands, rows);
        assert_eq!(told, answer, "{self:?} {picture:?} {rows:?}");
        assert!(bands == plain, "{self:?} {picture:?} {rows:?}");
        assert!(answer.is_ok() || bands == stood);
        answer
    }
}

#[test]
fn accepted_pictures() {
    let mut random = Random(1);
    for reader in Reader::all() {
        for _ in 0..300 {
            let picture = random.picture();
            let bytes = picture.bytes(reader.format()).unwrap();
            let more = if let Reader::Strict = reader {
                0
            } else {
                random.below(20)
            };
            let data = reader.accepted(&mut random, bytes + more);
            let elements = picture.elements().unwrap() + random.below(40);
            let answer = reader.same(&data, picture, elements, &random.cuts());
            assert_eq!(answer, Ok(()));
        }
    }
}

/// One block of many is refused, or several are.
#[test]
fn refused_blocks() {
    let mut random = Random(2);
    for (reader, bad) in [(Reader::Strict, [4, 0, 0, 2]), (Reader::Opaque, [0; 4])] {
        let mut named = vec![];
        for _ in 0..500 {
            let picture = Picture::new(1 + random.below(21), 1 + random.below(49));
            let bytes = picture.bytes(reader.format()).unwrap();
            let mut data = reader.accepted(&mut random, bytes);
            for _ in 0..1 + random.below(2) {
                let at = random.below(bytes / 8) * 8;
                data[at..at + 4].copy_from_slice(&bad);
            }
            let answer = reader.same(&data, picture, picture.elements().unwrap(), &random.cuts());
            match answer.unwrap_err() {
                Refusal::OutOfRange { block } | Refusal::NotOpaque { block } => named.push(block),
                other => panic!("{other}"),
            }
        }
        assert!(named.iter().any(|block| *block > 20) && named.contains(&0));
    }
}

/// Everything else that is refused, one wrong thing or several: what is tested first is said.
#[test]
fn refused_calls() {
    let mut random = Random(3);
    for reader in Reader::all() {
        let mut numbers = vec![];
        for _ in 0..600 {
            let picture = random.picture();
            let bytes = picture.bytes(reader.format()).unwrap();
            let elements = picture.elements().unwrap();
            let wrong = random.below(64);
            let is = |bit: usize| wrong >> bit & 1 == 1;
            let less = |n: usize, random: &mut Random| n.saturating_sub(1 + random.below(9));
            let bytes = if is(0) { less(bytes, &mut random) } else { bytes };
            let bytes = if is(1) { bytes + random.below(9) } else { bytes };
            let data = random.bytes(bytes);
            let elements = if is(2) { less(elements, &mut random) } else { elements };
            let picture = if is(3) && is(4) {
                picture.with_pitch(random.below(picture.width + 1))
            } else {
                picture
            };
            let picture = match (is(5) && is(0), random.below(3)) {
                (true, 0) => picture.with_pitch(65_537 << random.below(40)),
                (true, 1) => Picture::new(65_537 + random.below(9), picture.height).with_pitch(picture.pitch),
                (true, _) => Picture::new(picture.width, usize::MAX - random.below(5)).with_pitch(picture.pitch),
                _ => picture,
            };
            let answer = reader.same(&data, picture, elements, &random.cuts());
            numbers.push(answer.map_or_else(Refusal::number, |()| 0));
        }
        for number in [0, 1, 12, 2, 3] {
            assert!(numbers.contains(&number), "{reader:?} never answers {number}");
        }
        assert_eq!(numbers.contains(&6), matches!(reader, Reader::Strict));
    }
}

#[test]
fn cuts_of_any_size() {
    let mut random = Random(4);
    let picture = Picture::new(9, 30).with_pitch(11);
    let data = random.bytes(picture.bytes(Format::Etc2Rgba8).unwrap());
    let elements = picture.elements().unwrap();
    for rows in [
        &[][..],
        &[0, 0, 0],
        &[usize::MAX],
        &[3, usize::MAX, 5],
        &[1; 8],
        &[7],
        &[8],
        &[0, 100],
    ] {
        assert_eq!(
            Reader::Plain(Format::Etc2Rgba8).same(&data, picture, elements, rows),
            Ok(())
        );
    }
}

#[test]
fn even_bands() {
    assert_eq!(Picture::new(1, 40).bands(3), [4, 3, 3]);
    assert_eq!(Picture::new(1, 1).bands(3), [1, 0, 0]);
    assert_eq!(Picture::new(1, 40).bands(0), []);
    assert_eq!(Picture::new(1, usize::MAX).bands(2).iter().sum::<usize>(), 1 << 62);
}

/// More bands than there are processors, and than rows of blocks.
#[test]
fn many_bands() {
    let mut random = Random(5);
    let picture = Picture::new(200, 399).with_pitch(203);
    for reader in Reader::all() {
        let data = reader.accepted(&mut random, picture.bytes(reader.format()).unwrap());
        for count in [1, 2, 3, 7, 64, 200] {
            let answer = reader.same(&data, picture, picture.elements().unwrap(), &picture.bands(count));
            assert_eq!(answer, Ok(()));
        }
    }
}
