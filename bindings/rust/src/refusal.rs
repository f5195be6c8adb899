//! Why a reader refused.
use core::fmt;

/// Why a reader refused. A refusal changes no element of the image.
#[derive(Clone, Copy, Debug, PartialEq, Eq, Hash)]
#[non_exhaustive]
pub enum Refusal {
    /// Refusal 1: the width, the height or the pitch is above 65,536; of a sheet, the width or the
    /// height above 16,384.
    TooLarge,
    /// Refusal 2: there are fewer bytes than the blocks have.
    ShortData,
    /// Refusal 3: there are fewer elements than the picture or the block has pixels; of the
    /// writer of sheets: less room than the sheet needs.
    ShortImage,
    /// Refusal 4, of the strict reader and its check alone: a base plus its step lies outside 0 to 31.
    OutOfRange {
        /// The first such block, counted from 0.
        block: usize,
    },
    /// Refusal 5: the channel is above 3.
    NoChannel,
    /// Refusal 6, of the strict reader and its check alone: there are more bytes than the blocks need.
    LongData,
    /// Refusal 7, of a sheet: a record is cut short, or there are no bytes at all.
    CutShort,
    /// Refusal 8, of a sheet: the first record is no head, or the format has no number.
    NoHead,
    /// Refusal 9, of a sheet: a record of another kind, a second head included.
    OtherKind,
    /// Refusal 10, of a sheet: no block record, a second one, or blocks of a wrong length.
    WrongBlocks,
    /// Refusal 11, of the opaque-only reader and its check alone: a block's opaque bit is clear.
    NotOpaque {
        /// The first such block, counted from 0.
        block: usize,
    },
    /// Refusal 12: the pitch is below the width.
    ShortPitch,
    /// Refusal 13, of degrees: a low or level of the legend does not lie in -720 to 720, or a step not
    /// in -8 to 8.
    BadLegend,
    /// Refusal 14, of degrees: legend and picture name different digits, or one above 4.
    BadDigit,
    /// Refusal 15, of degrees: the measurement does not lie in -720 to 720, or is not a number.
    BadMeasurement,
    /// Refusal 16, of the baker alone: a channel of a base is above 15.
    NoBase,
    /// Refusal 20, of a file: it ends before its header does.
    CutHeader,
    /// Refusal 21, of a file: its first bytes are those of no container that is known.
    NoTexture,
    /// Refusal 22, of a file: a version or a byte order that nobody defined.
    NoVersion,
    /// Refusal 23, of a file: a format that is not read here.
    NoFormat,
    /// Refusal 24, of a file: its sizes contradict each other.
    SizesDisagree,
    /// Refusal 25, of a file: a volume, an array or a cube.
    NotFlat,
    /// Refusal 26, of a file: its picture has no pixel.
    NoPixels,
    /// Refusal 37, of a file: there are fewer levels, or bytes of them, than the file tells.
    LevelsMissing,
    /// Refusal 38, of a file: there is no level of that number.
    NoLevel,
    /// Refusal 41, of a KTX 2 file: its levels are compressed once more.
    Supercompressed,
    /// A number that this package does not know: another archive than its own was linked.
    Unknown {
        /// What the archive answered.
        number: u32,
    },
}

impl Refusal {
    /// The number that the rules give this refusal.
    pub fn number(self) -> u32 {
        match self {
            Refusal::TooLarge => 1,
            Refusal::ShortData => 2,
            Refusal::ShortImage => 3,
            Refusal::OutOfRange { .. } => 4,
            Refusal::NoChannel => 5,
            Refusal::LongData => 6,
            Refusal::CutShort => 7,
            Refusal::NoHead => 8,
            Refusal::OtherKind => 9,
            Refusal::WrongBlocks => 10,
            Refusal::NotOpaque { .. } => 11,
            Refusal::ShortPitch => 12,
            Refusal::BadLegend => 13,
            Refusal::BadDigit => 14,
            Refusal::BadMeasurement => 15,
            Refusal::NoBase => 16,
            Refusal::CutHeader => 20,
            Refusal::NoTexture => 21,
            Refusal::NoVersion => 22,
            Refusal::NoFormat => 23,
            Refusal::SizesDisagree => 24,
            Refusal::NotFlat => 25,
            Refusal::NoPixels => 26,
            Refusal::LevelsMissing => 37,
            Refusal::NoLevel => 38,
            Refusal::Supercompressed => 41,
            Refusal::Unknown { number } => number,
        }
    }

    /// What went wrong, without the number and the block: the crate's own text where it has one.
    pub fn text(self) -> &'static str {
        match self {
            Refusal::TooLarge => "The width, the height or the pitch is above the limit!",
            Refusal::ShortData => "Not enough data to decode image!",
            Refusal::ShortImage => "Image buffer is too small!",
            Refusal::OutOfRange { .. } => "An ETC1 block has a sum out of range!",
            Refusal::NoChannel => "The channel is above 3!",
            Refusal::LongData => "There are more bytes than the blocks need!",
            Refusal::CutShort => "A record of the sheet is cut short, or there is none!",
            Refusal::NoHead => "The sheet has no head, or its format has no number!",
            Refusal::OtherKind => "The sheet has a record of an unknown kind!",
            Refusal::WrongBlocks => "The sheet has not exactly its blocks!",
            Refusal::NotOpaque { .. } => "An RGBA1 block has its opaque bit clear!",
            Refusal::ShortPitch => "The pitch is below the width!",
            Refusal::BadLegend => "The legend is out of range!",
            Refusal::BadDigit => "Legend and picture do not name one digit!",
            Refusal::BadMeasurement => "The measurement is out of range!",
            Refusal::NoBase => "A channel of a base is above 15!",
            Refusal::CutHeader => "The file ends before its header does!",
            Refusal::NoTexture => "The file is no texture file of a known kind!",
            Refusal::NoVersion => "The file has a version or a byte order that nobody defined!",
            Refusal::NoFormat => "The file has a format that is not read here!",
            Refusal::SizesDisagree => "The sizes in the file contradict each other!",
            Refusal::NotFlat => "The file holds a volume, an array or a cube!",
            Refusal::NoPixels => "The picture in the file has no pixel!",
            Refusal::LevelsMissing => "The file has fewer levels than it tells!",
            Refusal::NoLevel => "The file has no such level!",
            Refusal::Supercompressed => "The file is supercompressed!",
            Refusal::Unknown { .. } => "The linked library gave an answer that this package does not know!",
        }
    }

    /// The same of a picture in which so many blocks stand before: the block that it names, if any, counts them too.
    #[cfg(feature = "std")]
    pub(crate) fn behind(self, blocks: usize) -> Refusal {
        match self {
            Refusal::OutOfRange { block } => Refusal::OutOfRange { block: blocks + block },
            Refusal::NotOpaque { block } => Refusal::NotOpaque { block: blocks + block },
            other => other,
        }
    }

    /// What a number of the archive means, with the block that came with it.
    pub(crate) fn answered(number: u32, block: usize) -> Result<(), Refusal> {
        match number {
            0 => Ok(()),
            1 => Err(Refusal::TooLarge),
            2 => Err(Refusal::ShortData),
            3 => Err(Refusal::ShortImage),
            4 => Err(Refusal::OutOfRange { block }),
            5 => Err(Refusal::NoChannel),
            6 => Err(Refusal::LongData),
            7 => Err(Refusal::CutShort),
            8 => Err(Refusal::NoHead),
            9 => Err(Refusal::OtherKind),
            10 => Err(Refusal::WrongBlocks),
            11 => Err(Refusal::NotOpaque { block }),
            12 => Err(Refusal::ShortPitch),
            13 => Err(Refusal::BadLegend),
            14 => Err(Refusal::BadDigit),
            15 => Err(Refusal::BadMeasurement),
            16 => Err(Refusal::NoBase),
            20 => Err(Refusal::CutHeader),
            21 => Err(Refusal::NoTexture),
            22 => Err(Refusal::NoVersion),
            23 => Err(Refusal::NoFormat),
            24 => Err(Refusal::SizesDisagree),
            25 => Err(Refusal::NotFlat),
            26 => Err(Refusal::NoPixels),
            37 => Err(Refusal::LevelsMissing),
            38 => Err(Refusal::NoLevel),
            41 => Err(Refusal::Supercompressed),
            number => Err(Refusal::Unknown { number }),
        }
    }
}

impl fmt::Display for Refusal {
    fn fmt(&self, f: &mut fmt::Formatter<'_>) -> fmt::Result {
        let number = self.number();
        match self {
            Refusal::TooLarge => write!(
                f,
                "Refusal {number}: the width, the height or the pitch is above the limit."
            ),
            Refusal::ShortData => write!(f, "Refusal {number}: there are too few bytes for the blocks."),
            Refusal::ShortImage => write!(f, "Refusal {number}: the image or the room is too short."),
            Refusal::OutOfRange { block } => write!(
                f,
                "Refusal {number}: an ETC1 block has a sum out of range, the first of them block {block}."
            ),
            Refusal::NoChannel => write!(f, "Refusal {number}: the channel is above 3."),
            Refusal::LongData => write!(f, "Refusal {number}: there are more bytes than the blocks need."),
            Refusal::CutShort => write!(
                f,
                "Refusal {number}: a record of the sheet is cut short, or there is none."
            ),
            Refusal::NoHead => write!(
                f,
                "Refusal {number}: the sheet has no head, or its format has no number."
            ),
            Refusal::OtherKind => write!(f, "Refusal {number}: the sheet has a record of an unknown kind."),
            Refusal::WrongBlocks => write!(f, "Refusal {number}: the sheet has not exactly its blocks."),
            Refusal::NotOpaque { block } => write!(
                f,
                "Refusal {number}: an RGBA1 block has its opaque bit clear, the first of them block {block}."
            ),
            Refusal::ShortPitch => write!(f, "Refusal {number}: the pitch is below the width."),
            Refusal::BadLegend => write!(f, "Refusal {number}: the legend has degrees or a step out of range."),
            Refusal::BadDigit => write!(f, "Refusal {number}: legend and picture do not name one digit."),
            Refusal::BadMeasurement => write!(f, "Refusal {number}: the measurement is out of range, or no number."),
            Refusal::NoBase => write!(f, "Refusal {number}: a channel of a base is above 15."),
            Refusal::CutHeader => write!(f, "Refusal {number}: the file ends before its header does."),
            Refusal::NoTexture => write!(f, "Refusal {number}: the file is neither PKM, KTX, DDS nor a sheet."),
            Refusal::NoVersion => write!(
                f,
                "Refusal {number}: the file has a version or a byte order that nobody defined."
            ),
            Refusal::NoFormat => write!(f, "Refusal {number}: the file has a format that is not read here."),
            Refusal::SizesDisagree => write!(f, "Refusal {number}: the sizes in the file contradict each other."),
            Refusal::NotFlat => write!(f, "Refusal {number}: the file holds a volume, an array or a cube."),
            Refusal::NoPixels => write!(f, "Refusal {number}: the picture in the file has no pixel."),
            Refusal::LevelsMissing => write!(
                f,
                "Refusal {number}: the file has fewer levels, or bytes of them, than it tells."
            ),
            Refusal::NoLevel => write!(f, "Refusal {number}: the file has no level of that number."),
            Refusal::Supercompressed => write!(f, "Refusal {number}: the file's levels are compressed once more."),
            Refusal::Unknown { .. } => write!(f, "Refusal {number}: the linked library is not this package's own."),
        }
    }
}

impl core::error::Error for Refusal {}

/// For callers whose errors are the crate's texts.
impl From<Refusal> for &'static str {
    fn from(refusal: Refusal) -> Self {
        refusal.text()
    }
}
