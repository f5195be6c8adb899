//! What an older viewer shows wrong, in numbers.
use crate::census::{counted, Census};
use crate::refusal::Refusal;
use crate::sys;
use crate::typed::Picture;

/// A pixel that two rules show differently.
#[derive(Clone, Copy, Debug, PartialEq, Eq, Hash)]
pub struct OlderPixel {
    /// The number of its block, from 0, left to right and then down.
    pub block: usize,
    /// Its place in the block, 0 to 15, row by row.
    pub place: usize,
}

/// How an older viewer's picture differs from the right one. A tile that an edge clips counts as far as it is
/// shown.
#[derive(Clone, Copy, Debug, PartialEq, Eq, Hash)]
pub struct OlderCounts {
    /// How many pixels differ.
    pub pixels: usize,
    /// How many blocks have such a pixel.
    pub blocks: usize,
    /// The first of them, where there is one: of the first block, the first pixel.
    pub first: Option<OlderPixel>,
    /// The largest difference of any red, green or blue.
    pub colour: u8,
    /// The largest difference of any alpha.
    pub alpha: u8,
}

fn counts(older: Census, data: &[u8], picture: Picture) -> Result<OlderCounts, Refusal> {
    let [pixels, blocks, block, place, colour, alpha] = counted(older, data, picture)?;
    Ok(OlderCounts {
        pixels,
        blocks,
        first: (place < 16).then_some(OlderPixel { block, place }),
        colour: colour as u8,
        alpha: alpha as u8,
    })
}

/// Counts what a viewer that knows ETC1 alone shows wrong of an ETC2 RGB picture: where
/// [`check_strict`](crate::typed::check_strict) accepts, nothing. A pitch is not looked at.
///
/// Refuses with [`Refusal::TooLarge`] or [`Refusal::ShortData`], tested in that order.
///
/// ```
/// use yalivucu::typed::{older_etc1, OlderPixel, Picture, Refusal};
///
/// let counts = older_etc1(&[0, 0, 4, 2, 0, 0, 0, 0], Picture::new(4, 4))?;
/// assert_eq!((counts.pixels, counts.blocks), (16, 1));
/// assert_eq!(counts.first, Some(OlderPixel { block: 0, place: 0 }));
/// # Ok::<(), Refusal>(())
/// ```
pub fn older_etc1(data: &[u8], picture: Picture) -> Result<OlderCounts, Refusal> {
    counts(sys::yalivucu_older_etc1, data, picture)
}

/// Counts what a viewer that knows ETC2 RGB, but nothing transparent, shows wrong of an RGBA1 picture: where
/// [`check_opaque`](crate::typed::check_opaque) accepts, nothing. A pitch is not looked at.
///
/// Refuses with [`Refusal::TooLarge`] or [`Refusal::ShortData`], tested in that order.
///
/// ```
/// use yalivucu::typed::{older_rgb, Picture, Refusal};
///
/// let counts = older_rgb(&[0; 8], Picture::new(4, 4))?;
/// assert_eq!((counts.pixels, counts.colour, counts.alpha), (16, 2, 0));
/// # Ok::<(), Refusal>(())
/// ```
pub fn older_rgb(data: &[u8], picture: Picture) -> Result<OlderCounts, Refusal> {
    counts(sys::yalivucu_older_rgb, data, picture)
}
