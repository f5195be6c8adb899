//! How many blocks of a picture are of each kind.
use crate::refusal::Refusal;
use crate::sys;
use crate::typed::Picture;

/// The blocks of an ETC2 RGB picture by their kinds; together they are all of its blocks.
#[derive(Clone, Copy, Debug, Default, PartialEq, Eq, Hash)]
pub struct RgbCounts {
    /// Two bases of four bits.
    pub individual: usize,
    /// A base of five bits and a step. These and the individual ones are all that ETC1 has.
    pub differential: usize,
    /// A red sum out of range.
    pub t: usize,
    /// A green sum out of range.
    pub h: usize,
    /// A blue sum out of range.
    pub planar: usize,
}

/// Blocks by the four kinds that RGBA1 has.
#[derive(Clone, Copy, Debug, Default, PartialEq, Eq, Hash)]
pub struct KindCounts {
    /// All sums in range.
    pub differential: usize,
    /// A red sum out of range.
    pub t: usize,
    /// A green sum out of range.
    pub h: usize,
    /// A blue sum out of range.
    pub planar: usize,
}

/// The blocks of an ETC2 RGBA1 picture by their kinds; together they are all of its blocks.
#[derive(Clone, Copy, Debug, Default, PartialEq, Eq, Hash)]
pub struct Rgba1Counts {
    /// Those whose opaque bit is set.
    pub opaque: KindCounts,
    /// Those whose opaque bit is clear.
    pub clear: KindCounts,
}

/// A census of the library: bytes, width and height, and a room for its counts.
pub(crate) type Census = unsafe extern "C" fn(*const u8, usize, usize, usize, *mut usize, usize) -> u32;

/// The counts of a census that has `N` of them.
pub(crate) fn counted<const N: usize>(census: Census, data: &[u8], picture: Picture) -> Result<[usize; N], Refusal> {
    let mut counts = [0; N];
    // SAFETY: the pointers and lengths are those of a slice and an array that live through the call.
    let number = unsafe {
        census(
            data.as_ptr(),
            data.len(),
            picture.width,
            picture.height,
            counts.as_mut_ptr(),
            counts.len(),
        )
    };
    Refusal::answered(number, 0)?;
    Ok(counts)
}

/// Counts the blocks of each kind of an ETC2 RGB picture. Bytes beyond the last block are not
/// counted, and a pitch is not looked at.
///
/// Refuses with [`Refusal::TooLarge`] or [`Refusal::ShortData`], tested in that order.
///
/// ```
/// use yalivucu::typed::{census_etc2_rgb, Picture, Refusal};
///
/// let counts = census_etc2_rgb(&[0x04, 0, 0, 0x02, 0, 0, 0, 0], Picture::new(4, 4))?;
/// assert_eq!((counts.t, counts.individual), (1, 0));
/// # Ok::<(), Refusal>(())
/// ```
pub fn census_etc2_rgb(data: &[u8], picture: Picture) -> Result<RgbCounts, Refusal> {
    let [individual, differential, t, h, planar] = counted(sys::yalivucu_census_etc2_rgb, data, picture)?;
    Ok(RgbCounts {
        individual,
        differential,
        t,
        h,
        planar,
    })
}

/// Counts the blocks of each kind of an ETC2 RGBA1 picture, split by the opaque bit. Bytes beyond
/// the last block are not counted, and a pitch is not looked at.
///
/// Refuses with [`Refusal::TooLarge`] or [`Refusal::ShortData`], tested in that order.
///
/// ```
/// use yalivucu::typed::{census_etc2_rgba1, Picture, Refusal};
///
/// let counts = census_etc2_rgba1(&[0; 8], Picture::new(4, 4))?;
/// assert_eq!((counts.opaque.differential, counts.clear.differential), (0, 1));
/// # Ok::<(), Refusal>(())
/// ```
pub fn census_etc2_rgba1(data: &[u8], picture: Picture) -> Result<Rgba1Counts, Refusal> {
    let counts: [usize; 8] = counted(sys::yalivucu_census_etc2_rgba1, data, picture)?;
    let kinds = |at: usize| KindCounts {
        differential: counts[at],
        t: counts[at + 1],
        h: counts[at + 2],
        planar: counts[at + 3],
    };
    Ok(Rgba1Counts {
        opaque: kinds(0),
        clear: kinds(4),
    })
}
