//! The command line.
use crate::formats::{self, Kind, TABLE};
use crate::texture::{Levels, Reading};
use crate::End;
use clap::builder::PossibleValuesParser;
use clap::{Args, Parser, Subcommand, ValueEnum};
use clap_complete::Shell;
use std::ffi::OsString;
use std::path::PathBuf;
use yalivucu::typed::Legend;

/// Unpacks, checks and measures ETC1, ETC2, EAC and BC textures
///
/// What decides a pixel, a refusal or a verdict is a proved library. A file is a PKM, KTX 1, KTX 2 or DDS file or a sheet, and
/// the name - is standard input or standard output. Results go to standard output, refusals with their numbers to standard error.
/// The exit status is 0 where everything was done, 1 where something was refused or an answer was no, and 2 after a
/// wrong call. A refusal leaves every file as it was.
#[derive(Parser, Debug)]
#[command(name = "yalivucu", version, disable_help_subcommand = true)]
pub struct Call {
    #[command(subcommand)]
    pub command: Command,
}

#[derive(Subcommand, Debug)]
pub enum Command {
    Unpack(Unpack),
    Check(Check),
    Info(Info),
    Sheet(Sheet),
    Degrees(Degrees),
    Compare(Compare),
    Bake(Bake),
    /// Prints the manual page, as man reads it
    Manual,
    /// Prints the completions for a shell
    Completions {
        #[arg(value_enum)]
        shell: Shell,
    },
}

fn format_names() -> PossibleValuesParser {
    PossibleValuesParser::new(TABLE.iter().map(|kind| kind.name))
}

/// How a file is read.
#[derive(Args, Debug)]
pub struct ReadingArgs {
    /// Read the blocks by the rule of another format, whose blocks have as many bytes
    #[arg(long = "as", value_name = "FORMAT", value_parser = format_names())]
    pub as_format: Option<String>,
    /// The files are bare blocks of a format and a size: FORMAT as in --as, the size as in 64x32
    #[arg(long, num_args = 2, value_names = ["FORMAT", "WxH"], conflicts_with_all = ["as_format", "level"])]
    pub raw: Option<Vec<String>>,
    /// Read level N, of which 0 is the largest
    #[arg(long, value_name = "N", default_value_t = 0, hide_default_value = true)]
    pub level: usize,
    /// Read ETC1 by the old rule, whose sums wrap, also where a block is of a newer kind
    #[arg(long)]
    pub wrap: bool,
    /// Read also where bytes are left over behind the blocks of an ETC1 file or of bare blocks
    #[arg(long)]
    pub more: bool,
}

impl ReadingArgs {
    pub fn reading(&self) -> Result<Reading, End> {
        let raw = match self.raw.as_deref() {
            Some([name, size]) => Some(bare(name, size)?),
            _ => None,
        };
        Ok(Reading {
            raw,
            as_format: self.as_format.as_deref().and_then(formats::named),
            wrap: self.wrap,
            more: self.more,
        })
    }

    pub fn levels(&self) -> Levels {
        Levels::One(self.level)
    }
}

/// The two words behind --raw.
fn bare(name: &str, size: &str) -> Result<(&'static Kind, usize, usize), End> {
    let kind = formats::named(name).ok_or_else(|| {
        let known: Vec<&str> = TABLE.iter().map(|kind| kind.name).collect();
        let name = crate::names::shown(name);
        End::WrongCall(format!("--raw: '{name}' is no format; it is one of {}", known.join(", ")))
    })?;
    let sides = size.split_once('x').and_then(|(width, height)| {
        let side = |text: &str| text.bytes().all(|byte| byte.is_ascii_digit()).then(|| text.parse().ok())?;
        Some((side(width)?, side(height)?))
    });
    let size = crate::names::shown(size);
    let (width, height) = sides.ok_or_else(|| End::WrongCall(format!("--raw: '{size}' is no size such as 64x32")))?;
    Ok((kind, width, height))
}

/// Unpack files to PNG
///
/// FILE.. is followed by -o OUT or --into FOLDER; without both each file goes to NAME.png in this folder, where NAME is its
/// own name. Of two words the second is OUT where it ends in .png or .npy or is -. A PNG has the channels that the format
/// has: red alone is grey, and red and green have a blue of 0. An OUT that ends in .npy gets the numbers themselves: u8, or
/// the eleven bits of EAC as u16 or i16. An ETC1 file is read strictly.
#[derive(Args, Debug)]
pub struct Unpack {
    /// The files to read; - is standard input
    #[arg(value_name = "FILE", required = true)]
    pub files: Vec<OsString>,
    /// The file to write; - is standard output
    #[arg(short, long, value_name = "OUT", conflicts_with = "into")]
    pub out: Option<PathBuf>,
    /// Write each file to FOLDER/NAME.png, where NAME is the file's own name
    #[arg(long, value_name = "FOLDER")]
    pub into: Option<PathBuf>,
    #[command(flatten)]
    pub reading: ReadingArgs,
    /// Write every level, to names with the level's number: OUT.0.png, OUT.1.png ..
    #[arg(long, conflicts_with_all = ["level", "raw"])]
    pub levels: bool,
    /// 16: write EAC's eleven bits as 16, widened by repeating them, so that >> 5 gives them back; 1023 is added to signed ones
    #[arg(long, value_name = "BITS", value_parser = ["8", "16"], default_value = "8")]
    pub bits: String,
    /// Turn a picture whose file says that its first row is the bottom one
    #[arg(long)]
    pub upright: bool,
    /// Replace an ordinary file that has OUT's name
    #[arg(long)]
    pub force: bool,
    /// Work on so many threads; without it on as many as there are processors
    #[arg(long, value_name = "N", value_parser = clap::value_parser!(u16).range(1..=1024))]
    pub threads: Option<u16>,
}

/// Say whether an older viewer may show the files
///
/// Every block of every level is looked at. Of ETC1 and ETC2 RGB a strict ETC1 reader is asked, of RGBA1 an opaque-only
/// viewer; of other formats there is none. The first block that it must not show is named for each level.
#[derive(Args, Debug)]
pub struct Check {
    /// The files to read; - is standard input
    #[arg(value_name = "FILE", required = true)]
    pub files: Vec<OsString>,
    /// Take no notice of bytes that are left over behind the blocks
    #[arg(long)]
    pub more: bool,
    /// One object of JSON a file, on a line of its own
    #[arg(long)]
    pub json: bool,
}

/// Say what the files tell of themselves
#[derive(Args, Debug)]
pub struct Info {
    /// The files to read; - is standard input
    #[arg(value_name = "FILE", required = true)]
    pub files: Vec<OsString>,
    /// Count the kinds of blocks of each level: ETC1, ETC2 RGB and RGBA1
    #[arg(long)]
    pub census: bool,
    /// One object of JSON a file, on a line of its own
    #[arg(long)]
    pub json: bool,
}

/// Write a sheet of an ETC or EAC file
#[derive(Args, Debug)]
pub struct Sheet {
    /// The file to read; - is standard input
    #[arg(value_name = "FILE")]
    pub file: OsString,
    /// The sheet to write; - is standard output
    #[arg(value_name = "OUT.sheet")]
    pub out: PathBuf,
    #[command(flatten)]
    pub reading: ReadingArgs,
    /// Replace an ordinary file that has OUT's name
    #[arg(long)]
    pub force: bool,
}

/// The digits of a hand, by their numbers.
#[derive(Clone, Copy, Debug, ValueEnum)]
pub enum Digit {
    Thumb,
    Index,
    Middle,
    Ring,
    Little,
}

/// Compare what a legend predicts with what was measured
///
/// Points x,y,measured are read as CSV from standard input, or given as words; for each a row predicted,measured,difference
/// is written. Predicted and difference are empty where the pixel's alpha is 0: nothing was measured there. A first row
/// x,y,measured is a heading and gets one. The first row that is refused is named and ends the run.
#[derive(Args, Debug)]
pub struct Degrees {
    /// The picture; - is standard input, and then the points are words
    #[arg(value_name = "FILE")]
    pub file: OsString,
    /// Points, each x,y,measured
    #[arg(value_name = "POINT")]
    pub points: Vec<String>,
    /// What the red of a pixel means in degrees: level:DEGREES, line:LOW:STEP or bend:LOW:STEP:SECOND
    #[arg(long, value_parser = legend)]
    pub legend: Legend,
    /// The digit that the legend is for
    #[arg(long, value_enum)]
    pub legend_digit: Digit,
    /// The digit that the picture is of
    #[arg(long, value_enum)]
    pub picture_digit: Digit,
    #[command(flatten)]
    pub reading: ReadingArgs,
}

fn legend(text: &str) -> Result<Legend, String> {
    let mut words = text.split(':');
    let kind = words.next().unwrap_or_default();
    let numbers: Vec<f32> =
        words.map(|word| word.parse().map_err(|_| format!("'{word}' is no number"))).collect::<Result<_, _>>()?;
    match (kind, numbers.as_slice()) {
        ("level", &[degrees]) => Ok(Legend::Level(degrees)),
        ("line", &[low, step]) => Ok(Legend::Line { low, step }),
        ("bend", &[low, step, second]) => Ok(Legend::Bend { low, step, second }),
        _ => Err("a legend is level:DEGREES, line:LOW:STEP or bend:LOW:STEP:SECOND".to_owned()),
    }
}

/// Compare the blocks of an ETC1 file with the picture that they were baked from
///
/// A block is outside where it is of a newer kind, or where a red, green or blue of one of its pixels differs by more than
/// the tolerance. The exit status is 1 where one is.
#[derive(Args, Debug)]
pub struct Compare {
    /// The ETC1 file; - is standard input
    #[arg(value_name = "FILE")]
    pub file: OsString,
    /// The picture
    #[arg(value_name = "REFERENCE.png")]
    pub reference: OsString,
    /// How much red, green and blue of a pixel may differ
    #[arg(long, value_name = "N")]
    pub tolerance: u8,
    #[command(flatten)]
    pub reading: ReadingArgs,
}

/// Bake a PNG to an ETC1 file
///
/// The bases of a block are the averages of its halves. Both ways to cut it are tried, and the library finds the best codes
/// and indices of each. The picture must be opaque, since ETC1 has no alpha.
#[derive(Args, Debug)]
pub struct Bake {
    /// The picture
    #[arg(value_name = "IN.png")]
    pub file: OsString,
    /// The KTX 1 file to write; - is standard output
    #[arg(value_name = "OUT.ktx")]
    pub out: PathBuf,
    /// Replace an ordinary file that has OUT's name
    #[arg(long)]
    pub force: bool,
    /// Work on so many threads; without it on as many as there are processors
    #[arg(long, value_name = "N", value_parser = clap::value_parser!(u16).range(1..=1024))]
    pub threads: Option<u16>,
}
