//! A picture on several processors: cut between rows of blocks into bands, each read on a thread of its
//! own from its own part of the bytes into its own part of the image.
//!
//! The readers of whole pictures do the reading, and every refusal is theirs. That the bands are the
//! picture, wherever it is cut, and that the first bad block of all is the first of the first band that has
//! one, is proved (crates/claims/proofs/Bands.antt); the cutting and the threads here are not.
use crate::typed::{self, census_etc2_rgb, census_etc2_rgba1, Format, KindCounts, Picture, Refusal};
use core::mem;
use std::sync::{Mutex, PoisonError};
use std::thread;
use std::vec::Vec;

/// Some rows of blocks of a picture, as a picture of their own.
struct Band<'a> {
    /// The number of its first block in the whole.
    first: usize,
    picture: Picture,
    data: &'a [u8],
    image: &'a mut [u32],
}

impl Picture {
    /// So many bands, as even as rows of blocks let them be: how many rows of blocks each has.
    ///
    /// ```
    /// use yalivucu::typed::Picture;
    /// assert_eq!(Picture::new(64, 17).bands(2), [3, 2]);
    /// ```
    pub fn bands(self, count: usize) -> Vec<usize> {
        let rows = self.height.div_ceil(4);
        (0..count)
            .map(|k| rows / count + usize::from(k < rows % count))
            .collect()
    }

    /// How many blocks it has: of a picture that can be cut, and then that is no more than can be counted.
    fn blocks(self) -> usize {
        self.width.div_ceil(4) * self.height.div_ceil(4)
    }

    /// Whether it has a pixel, and no reader of the format finds anything wrong but with a block. Lent no byte, a
    /// reader refuses for a side, for the pitch or, if there is a block, for the bytes: so the first two are asked.
    fn can_be_cut(self, format: Format, data: &[u8], image: &[u32]) -> bool {
        typed::read(format, &[], self, &mut []) == Err(Refusal::ShortData)
            && self.bytes(format).is_some_and(|needed| needed <= data.len())
            && self.elements().is_some_and(|needed| needed <= image.len())
    }

    /// Cuts it after so many rows of blocks, then after so many more, and so on; the last band has what is
    /// left. A band that has no row is left out. It must be one that can be cut.
    fn cut<'a>(self, format: Format, mut data: &'a [u8], mut image: &'a mut [u32], rows: &[usize]) -> Vec<Band<'a>> {
        let mut bands = Vec::new();
        let (mut first, mut left) = (0, self.height);
        for rows in rows.iter().copied().chain([usize::MAX]) {
            let height = rows.saturating_mul(4).min(left);
            if height == 0 {
                continue;
            }
            let picture = Picture { height, ..self };
            let (bytes, behind) = data.split_at(picture.blocks() * format.block_size());
            let elements = if height == left {
                image.len()
            } else {
                height * self.pitch
            };
            let (own, below) = mem::take(&mut image).split_at_mut(elements);
            bands.push(Band {
                first,
                picture,
                data: bytes,
                image: own,
            });
            (data, image) = (behind, below);
            (first, left) = (first + picture.blocks(), left - height);
        }
        bands
    }
}

/// Does the same work on each band, on a thread of its own; on the caller's the first, and any for which there
/// is no thread to be had. What came of them, in the order of the bands.
fn each<'a, T: Send>(bands: &mut [Band<'a>], work: impl Fn(&mut Band<'a>) -> T + Sync) -> Vec<T> {
    let works: Vec<_> = bands.iter_mut().map(|band| Mutex::new((band, None))).collect();
    let done = &|k: usize| {
        let mut own = works[k].lock().unwrap_or_else(PoisonError::into_inner);
        own.1 = Some(work(own.0));
    };
    thread::scope(|scope| {
        let starts = |k| k > 0 && thread::Builder::new().spawn_scoped(scope, move || done(k)).is_ok();
        for k in (0..works.len()).rev() {
            if !starts(k) {
                done(k);
            }
        }
    });
    let came = |own: Mutex<(_, Option<T>)>| own.into_inner().unwrap_or_else(PoisonError::into_inner).1;
    works.into_iter().filter_map(came).collect()
}

/// Paints every band by the rule of a format.
fn painted(format: Format, bands: &mut [Band]) -> Result<(), Refusal> {
    each(bands, |band| typed::read(format, band.data, band.picture, band.image))
        .into_iter()
        .collect()
}

/// Reads a picture of any format as [`read`](typed::read) does, on several processors: with the same
/// refusals, and then `image` is as it was, and with the same pixels.
///
/// It is cut after the first `rows[0]` rows of blocks, after `rows[1]` more, and so on, and what is left is
/// a band too. Each band is read on a thread of its own. [`Picture::bands`] gives even ones.
///
/// ```
/// use yalivucu::typed::{read_in_bands, Format, Picture, Refusal};
///
/// let picture = Picture::new(64, 64);
/// let mut image = vec![0; 64 * 64];
/// read_in_bands(Format::Etc2Rgba8, &[0; 4096], picture, &mut image, &picture.bands(2))?;
/// assert!(image.iter().all(|pixel| *pixel == 0x0002_0202));
/// # Ok::<(), Refusal>(())
/// ```
pub fn read_in_bands(
    format: Format,
    data: &[u8],
    picture: Picture,
    image: &mut [u32],
    rows: &[usize],
) -> Result<(), Refusal> {
    if !picture.can_be_cut(format, data, image) {
        return typed::read(format, data, picture, image);
    }
    painted(format, &mut picture.cut(format, data, image, rows))
}

type Reader = fn(&[u8], Picture, &mut [u32]) -> Result<(), Refusal>;

/// A reader that looks at every block before it paints one.
struct Guard {
    reader: Reader,
    /// The format by whose rule it paints.
    own: Format,
    /// Whether a picture has a block that it refuses.
    refuses: fn(&[u8], Picture) -> Result<bool, Refusal>,
}

impl Guard {
    /// Looks at every band, and paints them where none has a block that is refused.
    fn read_in_bands(&self, mut bands: Vec<Band>) -> Result<(), Refusal> {
        let found = each(&mut bands, |band| (self.refuses)(band.data, band.picture));
        for (band, refuses) in bands.iter_mut().zip(found) {
            if refuses? {
                let refused = (self.reader)(band.data, band.picture, band.image);
                return refused.map_err(|refusal| refusal.behind(band.first));
            }
        }
        painted(self.own, &mut bands)
    }
}

/// Reads an ETC1 picture as [`read_strict`](typed::read_strict) does, in bands as [`read_in_bands`]: with
/// the same refusals, the first block out of range of all, and then `image` is as it was.
///
/// ```
/// use yalivucu::typed::{read_strict_in_bands, Picture, Refusal};
///
/// let mut data = [0; 32];
/// data[16..20].copy_from_slice(&[0x04, 0, 0, 0x02]);
/// let mut image = [7; 64];
/// let refused = read_strict_in_bands(&data, Picture::new(8, 8), &mut image, &[1]);
/// assert_eq!(refused, Err(Refusal::OutOfRange { block: 2 }));
/// assert_eq!(image, [7; 64]);
/// ```
pub fn read_strict_in_bands(data: &[u8], picture: Picture, image: &mut [u32], rows: &[usize]) -> Result<(), Refusal> {
    let strict = Guard {
        reader: typed::read_strict,
        own: Format::Etc1,
        refuses: |data, picture| census_etc2_rgb(data, picture).map(|found| found.t + found.h + found.planar > 0),
    };
    let exact = picture.bytes(strict.own) == Some(data.len());
    if !exact || !picture.can_be_cut(strict.own, data, image) {
        return (strict.reader)(data, picture, image);
    }
    strict.read_in_bands(picture.cut(strict.own, data, image, rows))
}

/// Reads an ETC2 RGBA1 picture as [`read_opaque`](typed::read_opaque) does, in bands as [`read_in_bands`]:
/// with the same refusals, the first block that is not opaque of all, and then `image` is as it was.
///
/// ```
/// use yalivucu::typed::{read_opaque_in_bands, Picture, Refusal};
///
/// let data = [[0xf8, 0, 0, 0x02, 0, 0, 0, 0], [0; 8]].concat();
/// let mut image = [7; 32];
/// let refused = read_opaque_in_bands(&data, Picture::new(4, 8), &mut image, &[1]);
/// assert_eq!(refused, Err(Refusal::NotOpaque { block: 1 }));
/// assert_eq!(image, [7; 32]);
/// ```
pub fn read_opaque_in_bands(data: &[u8], picture: Picture, image: &mut [u32], rows: &[usize]) -> Result<(), Refusal> {
    let opaque = Guard {
        reader: typed::read_opaque,
        own: Format::Etc2Rgb,
        refuses: |data, picture| census_etc2_rgba1(data, picture).map(|found| found.clear != KindCounts::default()),
    };
    if !picture.can_be_cut(opaque.own, data, image) {
        return (opaque.reader)(data, picture, image);
    }
    opaque.read_in_bands(picture.cut(opaque.own, data, image, rows))
}
