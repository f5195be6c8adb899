//! Progress on standard error, one line a reader on standard output, and the first
//! few differences in full.

use crate::pitched::pitch;
use crate::protocol::{Answer, Case};
use crate::readers::{block_size, elements, is_block, is_census, is_pitched, name};
use crate::rules::{blocks, blocks_across};
use std::time::{Duration, Instant};

const SHOWN: usize = 5;
const EVERY: Duration = Duration::from_secs(3);

pub struct Report {
    what: String,
    /// What is counted aside, in words.
    aside: &'static str,
    total: usize,
    cases: usize,
    refused: usize,
    blocks: usize,
    differences: usize,
    set_aside: usize,
    last: Instant,
}

impl Report {
    pub fn new(what: String, aside: &'static str, total: usize) -> Report {
        let last = Instant::now();
        Report { what, aside, total, cases: 0, refused: 0, blocks: 0, differences: 0, set_aside: 0, last }
    }

    /// Counts a case whose answer should have been `due`, and so many things of it aside.
    pub fn count(&mut self, case: &Case, due: &Answer, got: &Answer, aside: usize) {
        self.cases += 1;
        self.set_aside += aside;
        if due.number == 0 {
            self.blocks += blocks(case);
        } else {
            self.refused += 1;
        }
        if due != got {
            self.differ(case, due, got);
        }
        self.progress();
    }

    fn differ(&mut self, case: &Case, due: &Answer, got: &Answer) {
        if (due.number, due.block) != (got.number, got.block) {
            let what = || format!("answer {} {} due, {} {} given", due.number, due.block, got.number, got.block);
            self.note(case, what);
        }
        for (k, (a, b)) in due.image.iter().zip(&got.image).enumerate() {
            if a != b {
                self.note(case, || format!("element {k}{}: {a:08x} due, {b:08x} given", place(case, k)));
            }
        }
    }

    // Words are made for the few that are shown: there may be millions.
    fn note(&mut self, case: &Case, what: impl Fn() -> String) {
        if self.differences < SHOWN {
            println!("  {} case {}, {} by {}: {}", name(case.reader), self.cases, case.width, case.height, what());
        }
        self.differences += 1;
    }

    fn progress(&mut self) {
        if self.last.elapsed() >= EVERY {
            eprintln!("  {}: {} of {} cases", self.what, self.cases, self.total);
            self.last = Instant::now();
        }
    }

    /// Prints the line and answers whether there was no difference.
    pub fn close(self) -> bool {
        let aside = match self.set_aside {
            0 => String::new(),
            n => format!(" ({n} {})", self.aside),
        };
        println!(
            "{:<34} {:>7} cases ({:>5} refused) {:>9} blocks {:>6} differences{aside}",
            self.what, self.cases, self.refused, self.blocks, self.differences
        );
        self.differences == 0
    }
}

// The block that an element belongs to, with its bytes and the pixel in it.
fn place(case: &Case, k: usize) -> String {
    if is_census(case.reader) {
        return String::new();
    }
    let width = match case.reader {
        reader if is_block(reader) => 4,
        reader if is_pitched(reader) => pitch(case),
        _ => case.width as usize,
    };
    let pixel = k / elements(case.reader);
    let (x, y) = (pixel % width.max(1), pixel / width.max(1));
    let block = if is_block(case.reader) { 0 } else { y / 4 * blocks_across(case.width) + x / 4 };
    let size = block_size(case.reader);
    match case.data.get(block * size..(block + 1) * size) {
        Some(bytes) => {
            let hex: Vec<String> = bytes.iter().map(|b| format!("{b:02x}")).collect();
            format!(", pixel {} {} of block {block}, {}", x % 4, y % 4, hex.join(" "))
        }
        None => String::new(),
    }
}
