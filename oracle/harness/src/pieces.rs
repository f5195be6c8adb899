//! Pictures that arrive in pieces: what starting, each piece and the end answer, and the image after each piece, from the picture
//! that the plain reader shows and the sentences of request M-105.

use crate::expected::expected;
use crate::protocol::{Answer, Case};
use crate::readers::{block_size, name, BC1, ETC1, FORMATS, PITCHED};
use crate::rules::{blocks_across, LIMIT};
use crate::stored::{digest, mixed, sample, List, Row, Whole, OLD};

/// The numbers of a format's pictures cut at two places, and of those cut at random, in PROTOCOL.md.
const CUT: u32 = 96;
const SCATTERED: u32 = 128;

/// Four blocks of which three are clipped, in rows with a gap.
const SIZE: (u32, u32, u32) = (5, 5, 6);
const ELEMENTS: usize = 29;

/// What a course of pieces has answered so far, and what it shows.
struct Course {
    format: u32,
    shown: Vec<u32>,
    taken: usize,
    sum: u32,
    image: Vec<u32>,
}

impl Course {
    fn new(format: u32, seed: u32, listed: &[String]) -> Course {
        let (width, height, pitch) = SIZE;
        let data = sample(total(format), seed, false);
        let case = Case { reader: format + PITCHED, channel: pitch, width, height, data, image: vec![OLD; ELEMENTS] };
        let shown = expected(&case, listed).answer.image;
        Course { format, shown, taken: 0, sum: mixed(0, 0), image: vec![OLD; ELEMENTS] }
    }

    // "it paints the blocks that it completes, and says how many they are and how many bytes it did not use"
    fn piece(&mut self, bytes: usize) {
        let used = bytes.min(total(self.format) - self.taken);
        let before = self.finished();
        self.taken += used;
        let finished = self.finished();
        let (width, height, pitch) = SIZE;
        for (k, element) in self.image.iter_mut().enumerate() {
            let (x, y) = (k as u32 % pitch, k as u32 / pitch);
            let block = y as usize / 4 * blocks_across(width) + x as usize / 4;
            if x < width && y < height && block < finished {
                *element = self.shown[k];
            }
        }
        let told = [0, finished - before, bytes - used].map(|n| n as u32);
        self.sum = digest(&self.image, digest(&told, self.sum));
    }

    fn finished(&self) -> usize {
        self.taken / block_size(self.format)
    }

    // "Ending answers 0 when all blocks are painted, else 2"
    fn end(self) -> Answer {
        let number = if self.taken == total(self.format) { 0 } else { 2 };
        Answer { number, block: self.sum, image: self.image }
    }
}

fn total(format: u32) -> usize {
    blocks_across(SIZE.0) * blocks_across(SIZE.1) * block_size(format)
}

fn due(format: u32, length: usize, pieces: impl Iterator<Item = usize>, listed: &[String]) -> Answer {
    let mut course = Course::new(format, format, listed);
    let mut at = 0;
    for piece in pieces.chain([length]) {
        let end = length.min(at + piece);
        course.piece(end - at);
        at = end;
    }
    course.end()
}

fn row(family: u32, format: u32, (b, c): (u32, u32), length: usize) -> Row {
    let (width, height, pitch) = SIZE;
    let numbers = [family + format, pitch, b, c, width, height];
    Row { numbers, length, elements: ELEMENTS, seed: format, plain: false }
}

// So many bytes, cut at two places.
fn cut(format: u32, length: usize, b: usize, c: usize, listed: &[String]) -> (Row, Answer) {
    let row = row(CUT, format, (b as u32, c as u32), length);
    (row, due(format, length, [b, c].into_iter(), listed))
}

// The program's lengths.
fn drawn(seed: u32) -> impl Iterator<Item = usize> {
    let moved = |v: u32| (v * 40_505 + 12_829) % 65_536;
    let numbers = std::iter::successors(Some(moved(seed)), move |&v| Some(moved(v)));
    numbers.map(|v| [0, 1, 7, 15, 16, 17][(v / 256 % 6) as usize])
}

fn scattered(format: u32, length: usize, seed: u32, listed: &[String]) -> (Row, Answer) {
    (row(SCATTERED, format, (seed, 12), length), due(format, length, drawn(seed).take(12), listed))
}

/// Two bytes more than a picture has, cut at every pair of places (in document 01's formats), and at random; and ends that come
/// too early.
pub fn put(list: &mut List, listed: &[String]) {
    list.wholes("pieces: what starting refuses", &refusals());
    for format in FORMATS {
        let length = total(format) + 2;
        if format < BC1 {
            let pairs = (0..=length).flat_map(|b| (0..=length - b).map(move |c| (b, c)));
            let rows: Vec<_> = pairs.map(|(b, c)| cut(format, length, b, c, listed)).collect();
            list.rows(&format!("pieces, every two cuts: {}", name(format)), &rows);
        }
        let rows: Vec<_> = (0..200).map(|seed| scattered(format, length, seed, listed)).collect();
        list.rows(&format!("pieces at random: {}", name(format)), &rows);
        let rows: Vec<_> = (0..=length).map(|n| cut(format, n, n / 2, n - n / 2, listed)).collect();
        list.rows(&format!("pieces, ended early: {}", name(format)), &rows);
    }
}

const DESCRIPTIONS: [(u64, u64, u64); 9] = [
    (5, 5, 6),
    (6, 5, 6),
    (5, 5, 4),
    (6, 5, 4),
    (65_537, 5, 4),
    (5, 65_537, 4),
    (5, 5, 65_537),
    (0, 5, 0),
    (u64::MAX, u64::MAX, u64::MAX),
];

// A piece of three bytes and two without any, of an ETC1 picture over 29 elements. A picture that starting refuses takes nothing, and
// ends with the same; one whose image is short is ended as any other.
fn refusals() -> Vec<Whole> {
    let of = |&(width, height, pitch): &(u64, u64, u64)| {
        let limit = LIMIT as u64;
        let start = match () {
            _ if width > limit || height > limit || pitch > limit => 1,
            _ if pitch < width => 12,
            _ if width > 0 && (height - 1) * pitch + width > ELEMENTS as u64 => 3,
            _ => 0,
        };
        let image = vec![OLD; ELEMENTS];
        let mut sum = mixed(0, start);
        for bytes in [3, 0, 0] {
            let unused = if start == 0 && width > 0 { 0 } else { bytes };
            sum = digest(&image, digest(&[start, 0, unused], sum));
        }
        let number = match start {
            1 | 12 => start,
            _ if width > 0 => 2,
            _ => 0,
        };
        let numbers = [(CUT + ETC1) as u64, pitch, 3, 0, width, height];
        Whole { numbers, data: vec![0; 3], image: image.clone(), due: Answer { number, block: sum, image } }
    };
    DESCRIPTIONS.iter().map(of).collect()
}
