//! ETC1 blocks that somebody else baked, checked; and our own.
use crate::refusal::Refusal;
use crate::sys;

/// What the checker answers of a block that it does not accept: no refusal.
const NOT_ACCEPTED: u32 = 18;

/// Whether an ETC1 block is near enough to a tile: true exactly where it is in range and each red,
/// green and blue of each pixel differs from the tile's by at most the tolerance. Alpha is ignored.
/// Bytes beyond the eighth and elements beyond the sixteenth are not looked at.
///
/// Refuses with [`Refusal::ShortData`] under 8 bytes or [`Refusal::ShortImage`] under 16 elements,
/// tested in that order.
///
/// ```
/// use yalivucu::typed::{check_etc1_block, Refusal};
///
/// let tile = [0x00050505; 16]; // the block shows 0xff020202
/// assert_eq!(check_etc1_block(&[0; 8], &tile, 3), Ok(true));
/// assert_eq!(check_etc1_block(&[0; 8], &tile, 2), Ok(false));
/// assert_eq!(check_etc1_block(&[0; 7], &tile, 3), Err(Refusal::ShortData));
/// ```
pub fn check_etc1_block(block: &[u8], tile: &[u32], tolerance: u32) -> Result<bool, Refusal> {
    // SAFETY: the pointers and lengths are those of two slices that live through the call.
    let number =
        unsafe { sys::yalivucu_check_etc1_block(block.as_ptr(), block.len(), tile.as_ptr(), tile.len(), tolerance) };
    if number == NOT_ACCEPTED {
        return Ok(false);
    }
    Refusal::answered(number, 0).map(|()| true)
}

/// Bakes an individual ETC1 block from a tile into the first eight bytes of `block`: `first` and
/// `second` are red, green and blue of the two bases, four bits each, and `flip` puts the halves one
/// above the other. Of all codes and indices it takes those with the least sum of absolute red, green
/// and blue differences, of those the lower code, and then the lower index.
///
/// Refuses with [`Refusal::NoBase`] a channel above 15, with [`Refusal::ShortData`] under 8 bytes of room or
/// with [`Refusal::ShortImage`] under 16 elements, tested in that order, and then writes nothing.
///
/// ```
/// use yalivucu::typed::{bake_etc1_block, Refusal};
///
/// let mut block = [7; 9];
/// bake_etc1_block([0, 0, 0], [0, 0, 0], false, &[0xff020202; 16], &mut block)?;
/// assert_eq!(block, [0, 0, 0, 0, 0, 0, 0, 0, 7]);
/// # Ok::<(), Refusal>(())
/// ```
pub fn bake_etc1_block(
    first: [u8; 3],
    second: [u8; 3],
    flip: bool,
    tile: &[u32],
    block: &mut [u8],
) -> Result<(), Refusal> {
    // SAFETY: the pointers and lengths are those of arrays and slices that live through the call.
    let number = unsafe {
        sys::yalivucu_bake_etc1_block(
            &first,
            &second,
            usize::from(flip),
            tile.as_ptr(),
            tile.len(),
            block.as_mut_ptr(),
            block.len(),
        )
    };
    Refusal::answered(number, 0)
}
