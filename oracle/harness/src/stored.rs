//! The parts of the stored list: whole cases with their answers, and rows, whose data is made from a seed and whose answer is a
//! digest, so that every size can be stored. PROTOCOL.md has both forms.

use crate::protocol::{case_bytes, Answer, Case, Pair};

const NAME: usize = 44;
/// What stands in each element of a row's image before.
pub const OLD: u32 = 0x1111_1111;

/// The list as the program reads it, and what it has to write.
pub struct List {
    pub bytes: Vec<u8>,
    pub lines: String,
}

/// A whole case by its number, a, b, c, width and height, with its answer.
pub struct Whole {
    pub numbers: [u64; 6],
    pub data: Vec<u8>,
    pub image: Vec<u32>,
    pub due: Answer,
}

/// A case whose data is `sample(length, seed, plain)` and whose image is `OLD` throughout.
#[derive(Clone)]
pub struct Row {
    pub numbers: [u32; 6],
    pub length: usize,
    pub elements: usize,
    pub seed: u32,
    pub plain: bool,
}

impl Whole {
    pub fn of((case, due): &Pair) -> Whole {
        let numbers = [case.reader, case.channel, 0, 0, case.width, case.height].map(u64::from);
        Whole { numbers, data: case.data.clone(), image: case.image.clone(), due: due.clone() }
    }
}

impl Row {
    /// The row of a reader's case.
    pub fn of_reader(
        reader: u32,
        channel: u32,
        size: (u32, u32),
        lengths: (usize, usize),
        seed: u32,
        plain: bool,
    ) -> Row {
        let numbers = [reader, channel, 0, 0, size.0, size.1];
        Row { numbers, length: lengths.0, elements: lengths.1, seed: seed % 256, plain }
    }

    pub fn data(&self) -> Vec<u8> {
        sample(self.length, self.seed, self.plain)
    }

    pub fn case(&self) -> Case {
        let [reader, channel, _, _, width, height] = self.numbers;
        Case { reader, channel, width, height, data: self.data(), image: vec![OLD; self.elements] }
    }

    fn bytes(&self, due: &Answer, wide: bool) -> Vec<u8> {
        let lengths = [self.length as u32, self.elements as u32];
        let numbers = [&self.numbers[..], &lengths, &[self.seed, self.plain as u32, due.number, 0]].concat();
        let digest = digest(&due.image, due.block).to_le_bytes();
        let spelled = |&n: &u32| if wide { n.to_le_bytes().to_vec() } else { vec![u8::try_from(n).expect("a byte")] };
        numbers.iter().flat_map(spelled).chain(digest).collect()
    }
}

/// Bytes of every value, in an order that the seed moves. Where plain is set, no block has its difference bit.
pub fn sample(length: usize, seed: u32, plain: bool) -> Vec<u8> {
    let mut v = seed % 256;
    let mut next = || {
        let b = if plain { v / 4 * 4 + v % 2 } else { v };
        v = (v * 5 + 89) % 256;
        b as u8
    };
    (0..length).map(|_| next()).collect()
}

pub fn mixed(sum: u32, x: u32) -> u32 {
    sum.wrapping_mul(31).wrapping_add(x)
}

/// A number that changes with any element.
pub fn digest(image: &[u32], before: u32) -> u32 {
    image.iter().fold(before, |sum, &x| mixed(sum, x))
}

impl List {
    /// A group of cases none of which may differ.
    pub fn group(&mut self, name: &str, pairs: &[Pair]) {
        self.wholes(name, &pairs.iter().map(Whole::of).collect::<Vec<Whole>>());
    }

    pub fn wholes(&mut self, name: &str, wholes: &[Whole]) {
        self.put(name, wholes);
        self.right(name, wholes.len());
    }

    /// A group of answers that are wrong on purpose: every case has to be named.
    pub fn wrong(&mut self, name: &str, pairs: &[Pair]) {
        self.put(name, &pairs.iter().map(Whole::of).collect::<Vec<Whole>>());
        self.all_differ(name, pairs.len());
    }

    /// A group of rows.
    pub fn rows(&mut self, name: &str, rows: &[(Row, Answer)]) {
        self.put_rows(name, rows);
        self.right(name, rows.len());
    }

    pub fn wrong_rows(&mut self, name: &str, rows: &[(Row, Answer)]) {
        self.put_rows(name, rows);
        self.all_differ(name, rows.len());
    }

    fn right(&mut self, name: &str, count: usize) {
        self.lines += &format!("{name:<NAME$}{count} cases, 0 differ\n");
    }

    fn all_differ(&mut self, name: &str, count: usize) {
        self.lines.extend((0..count).map(|i| format!("  case {i} differs\n")));
        self.lines += &format!("{name:<NAME$}{count} cases, {count} differ\n");
    }

    fn head(&mut self, name: &str, count: usize, form: u32) {
        assert!(name.len() <= NAME, "{name} is too long");
        self.bytes.extend(format!("{name:<NAME$}").into_bytes());
        self.bytes.extend((count as u32).to_le_bytes());
        self.bytes.extend(form.to_le_bytes());
    }

    fn put(&mut self, name: &str, wholes: &[Whole]) {
        self.head(name, wholes.len(), 0);
        for whole in wholes {
            self.bytes.extend(case_bytes(whole.numbers, &whole.data, &whole.image));
            self.bytes.extend(whole.due.bytes());
        }
    }

    // Numbers of one byte where that is enough, else of four.
    fn put_rows(&mut self, name: &str, rows: &[(Row, Answer)]) {
        let most = |(row, _): &(Row, Answer)| {
            let lengths = [row.length as u32, row.elements as u32];
            row.numbers.into_iter().chain(lengths).max().unwrap_or(0)
        };
        let wide = rows.iter().map(most).max().unwrap_or(0) > 255;
        self.head(name, rows.len(), if wide { 4 } else { 1 });
        for (row, due) in rows {
            self.bytes.extend(row.bytes(due, wide));
        }
    }
}
