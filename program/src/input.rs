//! Files that are read: whole files by name, and standard input as far as its header asks for.
use crate::failure::{number, Failure};
use std::ffi::{OsStr, OsString};
use std::fs::{self, File, Metadata};
use std::io::{self, IsTerminal, Read};
use std::os::fd::AsFd;
use std::os::unix::fs::MetadataExt;
use yalivucu::typed;

/// How many bytes are read before the header is asked whether more are needed.
const FIRST: usize = 1 << 16;
/// No texture has more bytes: 65,536 by 65,536 pixels of a byte each, and a third more for the smaller levels.
const MOST: usize = 6 << 30;

/// Which file it is, whatever it is called.
pub type Identity = (u64, u64);

/// The bytes of a file, and who it is.
pub struct Input {
    pub bytes: Vec<u8>,
    /// How many more bytes the file has, which no picture needs.
    pub unread: u64,
}

/// How much of a file is wanted.
#[derive(Clone, Copy)]
pub enum Wanted {
    /// A texture file: what its header tells of, and one byte behind it.
    Texture,
    /// So many bytes, and one behind them.
    Bytes(usize),
    /// All of it.
    All,
}

pub fn identity(metadata: &Metadata) -> Identity {
    (metadata.dev(), metadata.ino())
}

/// Which files a call reads: none of them may be written.
pub fn identities<'a>(names: impl IntoIterator<Item = &'a OsString>) -> Vec<Identity> {
    names
        .into_iter()
        .filter_map(|name| if name == "-" { standard_input().ok()?.metadata().ok() } else { fs::metadata(name).ok() })
        .map(|metadata| identity(&metadata))
        .collect()
}

fn standard_input() -> io::Result<File> {
    Ok(File::from(io::stdin().as_fd().try_clone_to_owned()?))
}

fn cannot(sentence: impl std::fmt::Display) -> Failure {
    Failure::new(number::CANNOT_READ, sentence)
}

/// Opens a file. What is no ordinary file is refused before it is opened, since to open it can wait for ever.
fn opened(name: &OsStr) -> Result<File, Failure> {
    if name == "-" {
        if io::stdin().is_terminal() {
            return Err(cannot("standard input is a terminal; a file or a pipe is read."));
        }
        return standard_input().map_err(|why| cannot(format_args!("standard input cannot be read: {why}.")));
    }
    let metadata = fs::metadata(name).map_err(|why| cannot(format_args!("the file cannot be read: {why}.")))?;
    if metadata.is_dir() {
        return Err(cannot("it is a folder."));
    }
    if !metadata.is_file() {
        return Err(cannot("it is no ordinary file; - reads standard input."));
    }
    File::open(name).map_err(|why| cannot(format_args!("the file cannot be opened: {why}.")))
}

/// Reads until there are so many bytes, or no more. Whether there may be more.
fn read_up_to(file: &mut File, bytes: &mut Vec<u8>, limit: usize) -> Result<bool, Failure> {
    let missing = limit.saturating_sub(bytes.len()) as u64;
    file.take(missing).read_to_end(bytes).map_err(|why| cannot(format_args!("the file cannot be read: {why}.")))?;
    Ok(bytes.len() >= limit)
}

/// Whether bytes that follow could change the answer: the library's 2, 7, 10, 20 and 37 say that something is missing.
fn wants_more(bytes: &[u8]) -> bool {
    use typed::Refusal::{CutHeader, CutShort, LevelsMissing, ShortData, WrongBlocks};
    matches!(typed::File::open(bytes), Err(ShortData | CutShort | WrongBlocks | CutHeader | LevelsMissing))
}

/// Reads a texture file as far as its header asks for, in steps, so that a stream without end is not kept; and one
/// byte more, by which the library tells that some are left over.
fn read_texture(file: &mut File, bytes: &mut Vec<u8>) -> Result<(), Failure> {
    let mut limit = FIRST;
    while read_up_to(file, bytes, limit)? && wants_more(bytes) && limit < MOST {
        limit *= 2;
    }
    let whole = bytes.len();
    read_up_to(file, bytes, whole + 1).map(|_| ())
}

/// Reads a file.
pub fn read(name: &OsStr, wanted: Wanted) -> Result<Input, Failure> {
    let mut file = opened(name)?;
    let mut bytes = Vec::new();
    match wanted {
        Wanted::Texture => read_texture(&mut file, &mut bytes)?,
        Wanted::Bytes(count) => read_up_to(&mut file, &mut bytes, count.saturating_add(1)).map(|_| ())?,
        Wanted::All => read_up_to(&mut file, &mut bytes, MOST).map(|_| ())?,
    }
    let unread = match file.metadata() {
        Ok(metadata) if metadata.is_file() => metadata.len().saturating_sub(bytes.len() as u64),
        _ => 0,
    };
    Ok(Input { bytes, unread })
}
