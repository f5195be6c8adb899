//! The formats: one line for each, with its name on the command line and what it has.
use crate::failure::{number, Failure};
use yalivucu::typed::Format;

/// What a pixel has.
#[derive(Clone, Copy, Debug, PartialEq, Eq)]
pub enum Channels {
    Red,
    RedGreen,
    Rgb,
    Rgba,
}

impl Channels {
    /// How many numbers a pixel has.
    pub fn count(self) -> usize {
        match self {
            Channels::Red => 1,
            Channels::RedGreen => 2,
            Channels::Rgb => 3,
            Channels::Rgba => 4,
        }
    }
}

/// The numbers that the library has of a channel.
#[derive(Clone, Copy, Debug, PartialEq, Eq)]
pub enum Values {
    /// Eight bits.
    Eight,
    /// Eleven bits, 0 to 2047.
    Eleven,
    /// Eleven bits with a sign, -1023 to 1023.
    ElevenSigned,
}

/// The viewer that knows fewer kinds of blocks than the format has.
#[derive(Clone, Copy, Debug, PartialEq, Eq)]
pub enum Older {
    /// A strict ETC1 reader.
    Strict,
    /// A viewer of ETC2 RGB, which shows nothing transparent.
    Opaque,
    /// There is none.
    None,
}

/// A format and what it has.
#[derive(Clone, Copy, Debug)]
pub struct Kind {
    pub format: Format,
    /// Its name on the command line.
    pub name: &'static str,
    /// Its name in a sentence.
    pub title: &'static str,
    pub channels: Channels,
    pub values: Values,
    pub older: Older,
}

const fn kind(
    format: Format,
    name: &'static str,
    title: &'static str,
    channels: Channels,
    values: Values,
    older: Older,
) -> Kind {
    Kind { format, name, title, channels, values, older }
}

use Channels::{Red, RedGreen, Rgb, Rgba};
use Values::{Eight, Eleven, ElevenSigned};

/// Every format that is read.
#[rustfmt::skip]
pub const TABLE: &[Kind] = &[
    kind(Format::Etc1, "etc1", "ETC1", Rgb, Eight, Older::Strict),
    kind(Format::Etc2Rgb, "etc2-rgb", "ETC2 RGB", Rgb, Eight, Older::Strict),
    kind(Format::Etc2Rgba1, "etc2-rgba1", "ETC2 RGBA1", Rgba, Eight, Older::Opaque),
    kind(Format::Etc2Rgba8, "etc2-rgba8", "ETC2 RGBA8", Rgba, Eight, Older::None),
    kind(Format::EacR, "eac-r", "EAC R", Red, Eleven, Older::None),
    kind(Format::EacRSigned, "eac-r-signed", "EAC R signed", Red, ElevenSigned, Older::None),
    kind(Format::EacRg, "eac-rg", "EAC RG", RedGreen, Eleven, Older::None),
    kind(Format::EacRgSigned, "eac-rg-signed", "EAC RG signed", RedGreen, ElevenSigned, Older::None),
    kind(Format::Bc1, "bc1", "BC1", Rgb, Eight, Older::None),
    kind(Format::Bc1Alpha, "bc1-alpha", "BC1 with alpha", Rgba, Eight, Older::None),
    kind(Format::Bc2, "bc2", "BC2", Rgba, Eight, Older::None),
    kind(Format::Bc3, "bc3", "BC3", Rgba, Eight, Older::None),
    kind(Format::Bc4, "bc4", "BC4", Red, Eight, Older::None),
    kind(Format::Bc4Signed, "bc4-signed", "BC4 signed", Red, Eight, Older::None),
    kind(Format::Bc5, "bc5", "BC5", RedGreen, Eight, Older::None),
    kind(Format::Bc5Signed, "bc5-signed", "BC5 signed", RedGreen, Eight, Older::None),
    kind(Format::Bc7, "bc7", "BC7", Rgba, Eight, Older::None),
];

/// What is known of a format.
pub fn of(format: Format) -> Result<&'static Kind, Failure> {
    TABLE
        .iter()
        .find(|kind| kind.format == format)
        .ok_or_else(|| Failure::new(number::WRONG_FORMAT, "this program does not know the format."))
}

/// The format of a name on the command line.
pub fn named(name: &str) -> Option<&'static Kind> {
    TABLE.iter().find(|kind| kind.name == name)
}

#[cfg(test)]
mod tests {
    use super::*;

    #[test]
    fn every_format_of_the_library_has_its_line() {
        for format in Format::ALL {
            let kind = of(format).expect("a line of the table");
            assert_eq!(named(kind.name).map(|found| found.format), Some(format));
        }
    }
}
