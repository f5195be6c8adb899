//! Texture files: what one holds, and where its levels are.
use crate::refusal::Refusal;
use crate::sys;
use crate::typed::{read, Format, Picture};
use core::fmt;

/// The kinds of files that can be opened.
#[derive(Clone, Copy, Debug, PartialEq, Eq, Hash)]
#[non_exhaustive]
pub enum Container {
    /// PKM 1.0 or 2.0.
    Pkm,
    /// KTX 1, in either byte order.
    Ktx1,
    /// KTX 2.
    Ktx2,
    /// DDS, with a DX10 header or without.
    Dds,
    /// A sheet, as [`write_sheet`](crate::typed::write_sheet) writes it.
    Sheet,
}

impl Container {
    /// The containers by their numbers, which begin at 1.
    const NUMBERED: [Container; 5] = [
        Container::Pkm,
        Container::Ktx1,
        Container::Ktx2,
        Container::Dds,
        Container::Sheet,
    ];
}

impl fmt::Display for Container {
    fn fmt(&self, f: &mut fmt::Formatter<'_>) -> fmt::Result {
        f.write_str(match self {
            Container::Pkm => "PKM",
            Container::Ktx1 => "KTX 1",
            Container::Ktx2 => "KTX 2",
            Container::Dds => "DDS",
            Container::Sheet => "sheet",
        })
    }
}

/// Which row of a picture comes first in a file, by what the file itself tells. No pixel depends on it.
#[derive(Clone, Copy, Debug, PartialEq, Eq, Hash)]
pub enum Orientation {
    /// The file does not tell.
    Untold,
    /// The first row is the top one.
    TopDown,
    /// The first row is the bottom one.
    BottomUp,
}

impl Orientation {
    /// The orientations by their numbers.
    const NUMBERED: [Orientation; 3] = [Orientation::Untold, Orientation::TopDown, Orientation::BottomUp];
}

/// A texture file in memory: PKM, KTX 1, KTX 2, DDS or a sheet.
///
/// ```
/// use yalivucu::typed::{Container, File, Format, Refusal};
///
/// let bytes = b"PKM 10\0\0\0\x04\0\x04\0\x04\0\x04\x04\0\0\x02\0\0\0\0"; // 4 by 4, one block
/// let file = File::open(bytes)?;
/// assert_eq!((file.container(), file.format()), (Container::Pkm, Format::Etc1));
/// let level = file.level(0)?;
/// let mut image = vec![0; level.width() * level.height()];
/// level.read(&mut image)?;
/// assert_eq!(image[..4], [0xff020202, 0xff020202, 0xffe90202, 0xffe90202]);
/// # Ok::<(), Refusal>(())
/// ```
#[derive(Clone, Copy)]
pub struct File<'a> {
    bytes: &'a [u8],
    container: Container,
    format: Format,
    is_srgb: bool,
    width: usize,
    height: usize,
    level_count: usize,
    is_big_endian: bool,
    orientation: Orientation,
    left_over: usize,
}

/// An answer of another archive than this package's own.
const UNKNOWN: Refusal = Refusal::Unknown { number: 0 };

/// What stands in a list under a number that the archive told.
fn numbered<T: Copy>(list: &[T], number: u64) -> Result<T, Refusal> {
    usize::try_from(number)
        .ok()
        .and_then(|number| list.get(number))
        .copied()
        .ok_or(UNKNOWN)
}

/// A number that the archive told; those of a file in memory are never larger than can be counted.
fn counted(number: u64) -> Result<usize, Refusal> {
    usize::try_from(number).map_err(|_| UNKNOWN)
}

impl<'a> File<'a> {
    /// Opens a file: judges its header and that every level it tells of is there. `bytes` are the whole
    /// file. What decides no pixel, such as a wrong `glType` of KTX or a wrong `linearSize` of DDS, refuses no file.
    ///
    /// Refuses with [`Refusal::NoTexture`], [`Refusal::CutHeader`], [`Refusal::NoVersion`], [`Refusal::NoFormat`],
    /// [`Refusal::Supercompressed`], [`Refusal::NotFlat`], [`Refusal::NoPixels`], [`Refusal::TooLarge`],
    /// [`Refusal::SizesDisagree`] or [`Refusal::LevelsMissing`]. A sheet it refuses as
    /// [`sheet_head`](crate::typed::sheet_head) does, and then one that has no pixel.
    ///
    /// ```
    /// use yalivucu::typed::{File, Refusal};
    /// assert_eq!(File::open(b"GIF89a").unwrap_err(), Refusal::NoTexture);
    /// assert_eq!(File::open(b"PKM 10\0\0").unwrap_err(), Refusal::CutHeader);
    /// ```
    pub fn open(bytes: &'a [u8]) -> Result<File<'a>, Refusal> {
        let mut told = sys::File::default();
        // SAFETY: the pointer and the length are those of a slice that lives through the call, and
        // `told` is a local of its own.
        let number = unsafe { sys::yalivucu_open_file(bytes.as_ptr(), bytes.len(), &mut told) };
        Refusal::answered(number, 0)?;
        Ok(File {
            bytes,
            container: numbered(&Container::NUMBERED, told.container.wrapping_sub(1))?,
            format: numbered(&Format::ALL, told.format)?,
            is_srgb: told.srgb != 0,
            width: counted(told.width)?,
            height: counted(told.height)?,
            level_count: counted(told.levels)?,
            is_big_endian: told.big_endian != 0,
            orientation: numbered(&Orientation::NUMBERED, told.orientation)?,
            left_over: counted(told.left_over)?,
        })
    }

    /// What kind of file it is.
    pub fn container(&self) -> Container {
        self.container
    }

    /// How the blocks of its levels are to be read.
    pub fn format(&self) -> Format {
        self.format
    }

    /// Whether the file says that its colours are sRGB. The readers do not convert them.
    pub fn is_srgb(&self) -> bool {
        self.is_srgb
    }

    /// The width of level 0, the largest, in pixels.
    pub fn width(&self) -> usize {
        self.width
    }

    /// The height of level 0 in pixels.
    pub fn height(&self) -> usize {
        self.height
    }

    /// How many levels it has: at least 1.
    pub fn level_count(&self) -> usize {
        self.level_count
    }

    /// Whether the numbers of its header are big-endian: of PKM always, of KTX 1 where the header says so.
    pub fn is_big_endian(&self) -> bool {
        self.is_big_endian
    }

    /// Which row comes first, where the file tells it: by the key KTXorientation of KTX 1 and KTX 2.
    pub fn orientation(&self) -> Orientation {
        self.orientation
    }

    /// How many bytes stand behind the last level.
    pub fn left_over(&self) -> usize {
        self.left_over
    }

    /// Level `n`; level 0 is the largest, and each side of the next is half as long, rounded down, and at least 1.
    ///
    /// Refuses with [`Refusal::NoLevel`] where `n` is not below [`level_count`](File::level_count).
    pub fn level(&self, n: usize) -> Result<Level<'a>, Refusal> {
        let mut told = sys::Level::default();
        // SAFETY: the pointer and the length are those of a slice that lives through the call, and
        // `told` is a local of its own.
        let number = unsafe { sys::yalivucu_file_level(self.bytes.as_ptr(), self.bytes.len(), n, &mut told) };
        Refusal::answered(number, 0)?;
        let (start, length) = (counted(told.start)?, counted(told.length)?);
        let behind = self.bytes.get(start..).ok_or(UNKNOWN)?;
        Ok(Level {
            format: self.format,
            width: counted(told.width)?,
            height: counted(told.height)?,
            data: behind.get(..length).ok_or(UNKNOWN)?,
        })
    }

    /// Every level, the largest first. None of them is refused.
    ///
    /// ```
    /// # use yalivucu::typed::{File, Refusal};
    /// # let bytes = b"PKM 10\0\0\0\x04\0\x04\0\x04\0\x04\x04\0\0\x02\0\0\0\0";
    /// for level in File::open(bytes)?.levels() {
    ///     let level = level?;
    ///     println!("{} by {} in {} bytes", level.width(), level.height(), level.data().len());
    /// }
    /// # Ok::<(), Refusal>(())
    /// ```
    pub fn levels(&self) -> impl Iterator<Item = Result<Level<'a>, Refusal>> {
        let file = *self;
        (0..file.level_count).map(move |n| file.level(n))
    }
}

/// All that is told of the file, and of its bytes how many there are.
impl fmt::Debug for File<'_> {
    fn fmt(&self, f: &mut fmt::Formatter<'_>) -> fmt::Result {
        f.debug_struct("File")
            .field("bytes", &self.bytes.len())
            .field("container", &self.container)
            .field("format", &self.format)
            .field("is_srgb", &self.is_srgb)
            .field("width", &self.width)
            .field("height", &self.height)
            .field("level_count", &self.level_count)
            .field("is_big_endian", &self.is_big_endian)
            .field("orientation", &self.orientation)
            .field("left_over", &self.left_over)
            .finish()
    }
}

/// One level of a file: a picture of its own.
#[derive(Clone, Copy)]
pub struct Level<'a> {
    format: Format,
    width: usize,
    height: usize,
    data: &'a [u8],
}

impl<'a> Level<'a> {
    /// How its blocks are to be read.
    pub fn format(&self) -> Format {
        self.format
    }

    /// Its width in pixels.
    pub fn width(&self) -> usize {
        self.width
    }

    /// Its height in pixels.
    pub fn height(&self) -> usize {
        self.height
    }

    /// Its blocks, exactly: as many bytes as [`Picture::bytes`] says.
    pub fn data(&self) -> &'a [u8] {
        self.data
    }

    /// Its size, in an image whose rows follow each other.
    pub fn picture(&self) -> Picture {
        Picture::new(self.width, self.height)
    }

    /// Reads it: pixel (x, y) is `image[y * width + x]`. For an image whose rows have a gap, or on several
    /// processors, hand [`data`](Level::data) to [`read`] or its like.
    ///
    /// Refuses with [`Refusal::ShortImage`] alone, and then `image` is as it was.
    pub fn read(&self, image: &mut [u32]) -> Result<(), Refusal> {
        read(self.format, self.data, self.picture(), image)
    }
}

/// All that is told of the level, and of its bytes how many there are.
impl fmt::Debug for Level<'_> {
    fn fmt(&self, f: &mut fmt::Formatter<'_>) -> fmt::Result {
        f.debug_struct("Level")
            .field("format", &self.format)
            .field("width", &self.width)
            .field("height", &self.height)
            .field("data", &self.data.len())
            .finish()
    }
}
