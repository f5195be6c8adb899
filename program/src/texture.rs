//! The pictures of a file: which level, by which format's rule, and whether it may be read so.
use crate::failure::{number, Failure};
use crate::formats::{self, Kind};
use crate::input::{Input, Wanted};
use yalivucu::typed::{self, Format, Orientation, Picture, Refusal};

/// How a file is to be read.
#[derive(Clone, Debug, Default)]
pub struct Reading {
    /// Bare blocks of a format and a size.
    pub raw: Option<(&'static Kind, usize, usize)>,
    /// Another format than the file tells.
    pub as_format: Option<&'static Kind>,
    /// ETC1 by the old rule, whose sums wrap.
    pub wrap: bool,
    /// Bytes may be left over.
    pub more: bool,
}

/// Which levels of a file.
#[derive(Clone, Copy, Debug)]
pub enum Levels {
    One(usize),
    All,
}

/// One level, and how it is read.
#[derive(Clone, Copy, Debug)]
pub struct Texture<'a> {
    pub kind: &'static Kind,
    pub level: usize,
    pub level_count: usize,
    pub width: usize,
    pub height: usize,
    pub data: &'a [u8],
    pub is_srgb: bool,
    pub is_bottom_up: bool,
    /// An ETC1 picture that only the strict reader may read.
    pub is_strict: bool,
}

impl Reading {
    /// How many bytes of a file are wanted.
    pub fn wanted(&self) -> Wanted {
        match self.raw {
            Some((kind, width, height)) => match Picture::new(width, height).bytes(kind.format) {
                Some(count) => Wanted::Bytes(count),
                None => Wanted::Bytes(0),
            },
            None => Wanted::Texture,
        }
    }

    /// The pictures of a file, none of which will be refused when it is read.
    pub fn accepted<'a>(&self, input: &'a Input, levels: Levels) -> Result<Vec<Texture<'a>>, Failure> {
        let textures = self.textures(input, levels)?;
        for texture in &textures {
            texture.accept()?;
        }
        Ok(textures)
    }

    /// The pictures of a file, whose blocks nobody has looked at.
    pub fn textures<'a>(&self, input: &'a Input, levels: Levels) -> Result<Vec<Texture<'a>>, Failure> {
        if let Some((kind, width, height)) = self.raw {
            return self.bare(input, kind, width, height).map(|texture| vec![texture]);
        }
        let file = typed::File::open(&input.bytes)?;
        let told = formats::of(file.format())?;
        let kind = self.as_format.unwrap_or(told);
        if kind.format.block_size() != told.format.block_size() {
            return Err(other_blocks(kind, told));
        }
        let is_etc1 = told.format == Format::Etc1 || kind.format == Format::Etc1;
        if is_etc1 && !self.more && file.left_over() > 0 {
            return Err(left_over(file.left_over() as u64 + input.unread));
        }
        match levels {
            Levels::One(level) => Ok(vec![self.texture(&file, kind, level)?]),
            Levels::All => (0..file.level_count()).map(|level| self.texture(&file, kind, level)).collect(),
        }
    }

    fn texture<'a>(&self, file: &typed::File<'a>, kind: &'static Kind, n: usize) -> Result<Texture<'a>, Failure> {
        let level = file.level(n)?;
        Ok(Texture {
            kind,
            level: n,
            level_count: file.level_count(),
            width: level.width(),
            height: level.height(),
            data: level.data(),
            is_srgb: file.is_srgb(),
            is_bottom_up: file.orientation() == Orientation::BottomUp,
            is_strict: kind.format == Format::Etc1 && !self.wrap,
        })
    }

    /// Bare blocks: the library's own checks of their size and their bytes, and none left over.
    fn bare<'a>(
        &self,
        input: &'a Input,
        kind: &'static Kind,
        width: usize,
        height: usize,
    ) -> Result<Texture<'a>, Failure> {
        let picture = Picture::new(width, height);
        if width == 0 || height == 0 {
            return Err(Refusal::NoPixels.into());
        }
        let asked = typed::read(kind.format, &input.bytes, picture, &mut []);
        if let Err(refusal) = asked.or_else(|refusal| match refusal {
            Refusal::ShortImage => Ok(()),
            other => Err(other),
        }) {
            return Err(refusal.into());
        }
        let needed = picture.bytes(kind.format).ok_or(Refusal::TooLarge)?;
        let (data, behind) = input.bytes.split_at(needed);
        if !behind.is_empty() && !self.more {
            return Err(left_over(behind.len() as u64 + input.unread));
        }
        Ok(Texture {
            kind,
            level: 0,
            level_count: 1,
            width,
            height,
            data,
            is_srgb: false,
            is_bottom_up: false,
            is_strict: kind.format == Format::Etc1 && !self.wrap,
        })
    }
}

fn other_blocks(kind: &Kind, told: &Kind) -> Failure {
    let sentence = format!(
        "{} has blocks of {} bytes, and the file's, {}, have {}; --raw reads bare blocks.",
        kind.title,
        kind.format.block_size(),
        told.title,
        told.format.block_size()
    );
    Failure::new(number::WRONG_FORMAT, sentence)
}

/// The refusal of bytes behind the blocks, by the library's number and sentence.
pub fn left_over(count: u64) -> Failure {
    let bytes = if count == 1 { "byte is" } else { "bytes are" };
    Failure::from(Refusal::LongData).and(&format!(
        "{count} {bytes} left over behind the blocks, as where a file of larger blocks has the wrong name; --more reads it all the same."
    ))
}

impl Texture<'_> {
    pub fn picture(&self) -> Picture {
        Picture::new(self.width, self.height)
    }

    /// Where a block begins: column and row of its first pixel.
    pub fn pixel_of(&self, block: usize) -> (usize, usize) {
        pixel_of(block, self.width)
    }

    /// Asks the strict reader, where it is the one that will read.
    fn accept(&self) -> Result<(), Failure> {
        if !self.is_strict {
            return Ok(());
        }
        typed::check_strict(self.data, self.width, self.height).map_err(|refusal| {
            let level = format!("Level {} of {}.", self.level, self.level_count);
            blamed(refusal, self.width)
                .and(&level)
                .and("--as etc2-rgb reads it by the new rule, --wrap by the old one.")
        })
    }
}

/// Where a block of a picture of that width begins: column and row of its first pixel.
pub fn pixel_of(block: usize, width: usize) -> (usize, usize) {
    let across = width.div_ceil(4).max(1);
    (block % across * 4, block / across * 4)
}

/// A refusal, with the pixel of the block that it names.
pub fn blamed(refusal: Refusal, width: usize) -> Failure {
    let failure = Failure::from(refusal);
    match refusal {
        Refusal::OutOfRange { block } | Refusal::NotOpaque { block } => {
            let (column, row) = pixel_of(block, width);
            failure.and(&format!("Block {block} begins at pixel column {column} and row {row}."))
        }
        _ => failure,
    }
}
