//! What the tests share: a folder of their own, runs of the program, and files of every kind.
#![allow(dead_code)]
use std::ffi::OsStr;
use std::fs;
use std::io::Write;
use std::os::unix::process::ExitStatusExt;
use std::path::{Path, PathBuf};
use std::process::{Command, Output, Stdio};
use yalivucu::typed::{Format, Picture};

pub const PROGRAM: &str = env!("CARGO_BIN_EXE_yalivucu");

/// The top of the checkout. The folder of the build names this file by its whole path.
pub fn top() -> PathBuf {
    let here = fs::canonicalize(file!()).expect("this file");
    here.ancestors().nth(4).expect("the top").to_owned()
}

pub fn example(name: &str) -> String {
    let path = top().join("examples").join(name);
    path.to_str().expect("a name that is text").to_owned()
}

/// A folder of a test's own.
pub struct Room(tempfile::TempDir);

impl Room {
    pub fn new() -> Room {
        Room(tempfile::tempdir().expect("a folder"))
    }

    pub fn path(&self, name: impl AsRef<OsStr>) -> PathBuf {
        self.0.path().join(name.as_ref())
    }

    pub fn here(&self) -> &Path {
        self.0.path()
    }

    pub fn write(&self, name: &str, bytes: &[u8]) -> String {
        fs::write(self.path(name), bytes).expect("a file that can be written");
        name.to_owned()
    }

    pub fn read(&self, name: &str) -> Vec<u8> {
        fs::read(self.path(name)).unwrap_or_else(|why| panic!("{name}: {why}"))
    }

    /// The names in it.
    pub fn list(&self) -> Vec<String> {
        let names = fs::read_dir(self.here()).expect("the folder");
        let mut names: Vec<String> =
            names.map(|entry| entry.expect("an entry").file_name().to_string_lossy().into_owned()).collect();
        names.sort();
        names
    }

    /// A run of the program in this folder.
    pub fn command(&self, words: &[&str]) -> Command {
        let mut command = Command::new(PROGRAM);
        command.args(words).current_dir(self.here()).stdin(Stdio::null());
        command
    }

    pub fn run(&self, words: &[&str]) -> Ran {
        Ran::of(self.command(words).output().expect("the program runs"))
    }

    pub fn run_with(&self, words: &[&str], input: &[u8]) -> Ran {
        let mut command = self.command(words);
        let mut child = command
            .stdin(Stdio::piped())
            .stdout(Stdio::piped())
            .stderr(Stdio::piped())
            .spawn()
            .expect("the program runs");
        let mut stdin = child.stdin.take().expect("standard input");
        let input = input.to_vec();
        let writer = std::thread::spawn(move || {
            let _ = stdin.write_all(&input);
        });
        let ran = Ran::of(child.wait_with_output().expect("the program ends"));
        writer.join().expect("the input was written, or nobody wanted it");
        ran
    }

    /// A line of shell in this folder; $Y is the program.
    pub fn shell(&self, line: &str) -> Ran {
        let mut command = Command::new("sh");
        command.args(["-c", line]).current_dir(self.here()).env("Y", PROGRAM).stdin(Stdio::null());
        Ran::of(command.output().expect("sh runs"))
    }
}

/// What came of a run.
#[derive(Debug)]
pub struct Ran {
    /// The exit status, or minus the signal that ended it.
    pub status: i32,
    pub bytes: Vec<u8>,
    pub out: String,
    pub err: String,
}

impl Ran {
    pub fn of(output: Output) -> Ran {
        let signal = || -output.status.signal().unwrap_or(0);
        Ran {
            status: output.status.code().unwrap_or_else(signal),
            out: String::from_utf8_lossy(&output.stdout).into_owned(),
            bytes: output.stdout,
            err: String::from_utf8_lossy(&output.stderr).into_owned(),
        }
    }

    /// Refused with a number, and its sentence names the file.
    #[track_caller]
    pub fn refuses(&self, number: u32, name: &str) {
        assert_eq!(self.status, 1, "{self:?}");
        let sentence = format!("Refusal {number}:");
        assert!(self.err.contains(&sentence) && self.err.contains(name), "{number} {name}: {self:?}");
        assert!(self.err.trim_end().ends_with('.'), "{self:?}");
    }

    #[track_caller]
    pub fn is_done(&self) {
        assert_eq!((self.status, self.err.as_str()), (0, ""), "{self:?}");
    }

    #[track_caller]
    pub fn is_a_wrong_call(&self, word: &str) {
        assert_eq!(self.status, 2, "{self:?}");
        assert!(self.err.contains(word) && self.out.is_empty(), "{word}: {self:?}");
    }
}

/// Numbers that look random and are the same every time.
pub struct Dice(pub u64);

impl Dice {
    pub fn next(&mut self) -> u64 {
        self.0 = self.0.wrapping_mul(6364136223846793005).wrapping_add(1442695040888963407);
        self.0 >> 33
    }

    pub fn below(&mut self, limit: usize) -> usize {
        (self.next() % limit as u64) as usize
    }
}

/// Blocks of a picture: of ETC1 individual ones, which every reader shows.
pub fn blocks(format: Format, width: usize, height: usize, seed: u64) -> Vec<u8> {
    let mut dice = Dice(seed);
    let count = Picture::new(width, height).bytes(format).expect("a size");
    let mut bytes: Vec<u8> = (0..count).map(|_| dice.next() as u8).collect();
    if format == Format::Etc1 {
        bytes.chunks_mut(8).for_each(|block| block[3] &= !2);
    }
    bytes
}

/// The blocks of each level, the largest first.
pub fn pyramid(format: Format, width: usize, height: usize, levels: usize, seed: u64) -> Vec<Vec<u8>> {
    let side = |side: usize, level: usize| (side >> level).max(1);
    (0..levels).map(|k| blocks(format, side(width, k), side(height, k), seed + k as u64)).collect()
}

fn word(big: bool, number: u32) -> [u8; 4] {
    if big {
        number.to_be_bytes()
    } else {
        number.to_le_bytes()
    }
}

pub const KTX1: &[u8] = b"\xABKTX 11\xBB\r\n\x1A\n";
pub const KTX2: &[u8] = b"\xABKTX 20\xBB\r\n\x1A\n";

/// An entry of KTX 1's key and value data.
pub fn entry(big: bool, text: &[u8]) -> Vec<u8> {
    let mut entry = word(big, text.len() as u32).to_vec();
    entry.extend(text);
    entry.resize(entry.len().div_ceil(4) * 4, 0);
    entry
}

/// A KTX 1 file.
pub fn ktx1(gl: u32, size: (usize, usize), levels: &[Vec<u8>], big: bool, keys: &[u8]) -> Vec<u8> {
    let (width, height) = (size.0 as u32, size.1 as u32);
    let header = [0x04030201, 0, 1, 0, gl, 0x1908, width, height, 0, 0, 1, levels.len() as u32, keys.len() as u32];
    let mut file = KTX1.to_vec();
    file.extend(header.iter().flat_map(|number| word(big, *number)));
    file.extend(keys);
    for level in levels {
        file.extend(word(big, level.len() as u32));
        file.extend(level);
    }
    file
}

/// A KTX 1 file with one level.
pub fn single(format: Format, size: (usize, usize), blocks: &[u8]) -> Vec<u8> {
    ktx1(gl(format), size, &[blocks.to_vec()], false, &[])
}

/// A KTX 2 file: the smallest level first.
pub fn ktx2(vk: u32, size: (usize, usize), levels: &[Vec<u8>]) -> Vec<u8> {
    let (width, height) = (size.0 as u32, size.1 as u32);
    let header = [vk, 1, width, height, 0, 0, 1, levels.len() as u32, 0, 0, 0, 0, 0, 0, 0, 0, 0];
    let mut file = KTX2.to_vec();
    file.extend(header.iter().flat_map(|number| number.to_le_bytes()));
    let mut at = 80 + 24 * levels.len();
    let mut index = vec![0; levels.len()];
    for (k, level) in levels.iter().enumerate().rev() {
        index[k] = at;
        at += level.len();
    }
    for (k, level) in levels.iter().enumerate() {
        let entry = [index[k], level.len(), level.len()];
        file.extend(entry.iter().flat_map(|number| (*number as u64).to_le_bytes()));
    }
    levels.iter().rev().for_each(|level| file.extend(level));
    file
}

/// A DDS file: by its four letters, or by the number of the longer header.
pub fn dds(letters: &[u8; 4], number: u32, size: (usize, usize), levels: &[Vec<u8>]) -> Vec<u8> {
    let mut header = vec![0u32; 32];
    header[0] = u32::from_le_bytes(*b"DDS ");
    header[1..5].copy_from_slice(&[124, 0x81007, size.1 as u32, size.0 as u32]);
    header[7] = levels.len() as u32;
    header[19..22].copy_from_slice(&[32, 4, u32::from_le_bytes(*letters)]);
    header[27] = 0x1000;
    if letters == b"DX10" {
        header.extend([number, 3, 0, 1, 0]);
    }
    let mut file: Vec<u8> = header.iter().flat_map(|number| number.to_le_bytes()).collect();
    levels.iter().for_each(|level| file.extend(level));
    file
}

/// A PKM file of a version and a type.
pub fn pkm(version: &[u8; 2], kind: u16, size: (usize, usize), blocks: &[u8]) -> Vec<u8> {
    let (width, height) = (size.0 as u16, size.1 as u16);
    let mut file = b"PKM ".to_vec();
    file.extend(version);
    let padded = [width.div_ceil(4) * 4, height.div_ceil(4) * 4];
    for number in [kind, padded[0], padded[1], width, height] {
        file.extend(number.to_be_bytes());
    }
    file.extend(blocks);
    file
}

/// The number of a format in KTX 1. By name, so that a format is here before the library has it.
pub fn gl(format: Format) -> u32 {
    match format!("{format:?}").as_str() {
        "Etc1" => 0x8D64,
        "Etc2Rgb" => 0x9274,
        "Etc2Rgba1" => 0x9276,
        "Etc2Rgba8" => 0x9278,
        "EacR" => 0x9270,
        "EacRSigned" => 0x9271,
        "EacRg" => 0x9272,
        "EacRgSigned" => 0x9273,
        "Bc1" => 0x83F0,
        "Bc1Alpha" => 0x83F1,
        "Bc2" => 0x83F2,
        "Bc3" => 0x83F3,
        "Bc4" => 0x8DBB,
        "Bc4Signed" => 0x8DBC,
        "Bc5" => 0x8DBD,
        "Bc5Signed" => 0x8DBE,
        "Bc7" => 0x8E8C,
        other => panic!("{other} has no number in these tests"),
    }
}

/// A large ETC2 RGBA8 picture, which takes a while.
pub fn large(side: usize) -> Vec<u8> {
    let blocks: Vec<u8> = (0..side * side).map(|k| (k % 251) as u8).collect();
    ktx1(gl(Format::Etc2Rgba8), (side, side), &[blocks], false, &[])
}

/// What is known of a PNG, read by Pillow and libpng.
#[derive(Debug)]
pub struct Seen {
    pub facts: serde_json::Value,
    pub samples: Vec<u8>,
}

/// Reads a PNG with libraries that nobody here wrote; tests/png_samples says how.
#[track_caller]
pub fn seen(png: &Path) -> Seen {
    let script = top().join("program/tests/png_samples");
    let output = Command::new("sh").arg(script).arg(png).output().expect("sh runs");
    assert!(output.status.success(), "{}", String::from_utf8_lossy(&output.stderr));
    let line = output.stdout.iter().position(|byte| *byte == b'\n').expect("a line");
    Seen {
        facts: serde_json::from_slice(&output.stdout[..line]).expect("JSON"),
        samples: output.stdout[line + 1..].to_vec(),
    }
}
