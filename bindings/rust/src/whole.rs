//! EAC's whole values of eleven bits.

use crate::sys;
use crate::typed::{Picture, Refusal};

fn read<T>(reader: sys::Whole<T>, data: &[u8], picture: Picture, image: &mut [T]) -> Result<(), Refusal> {
    // SAFETY: the pointers and lengths are those of two slices that live through the call, and the
    // numbers of the second are of the reader's own type.
    let number = unsafe {
        reader(
            data.as_ptr(),
            data.len(),
            picture.width,
            picture.height,
            picture.pitch,
            image.as_mut_ptr(),
            image.len(),
        )
    };
    Refusal::answered(number, 0)
}

macro_rules! readers {
    ($($(#[$doc:meta])* $name:ident = $called:ident, $number:ty;)*) => {$(
        $(#[$doc])*
        ///
        /// Refuses with [`Refusal::TooLarge`], [`Refusal::ShortPitch`], [`Refusal::ShortData`] or
        /// [`Refusal::ShortImage`], tested in that order, and then `image` is as it was.
        pub fn $name(data: &[u8], picture: Picture, image: &mut [$number]) -> Result<(), Refusal> {
            read(sys::$called, data, picture, image)
        }
    )*};
}

readers! {
    /// Reads all eleven bits of an EAC R picture, in blocks of 8 bytes: values of 0 to 2047. Pixel (x, y)
    /// is `image[y * pitch + x]`.
    ///
    /// ```
    /// use yalivucu::typed::{decode_eacr11, Picture};
    ///
    /// let mut image = [7; 17];
    /// decode_eacr11(&[0x80, 0x10, 0, 0, 0, 0, 0, 0], Picture::new(4, 4), &mut image)?;
    /// assert!(image[..16].iter().all(|value| *value == 8 * 128 + 4 - 3 * 8) && image[16] == 7);
    /// # Ok::<(), yalivucu::typed::Refusal>(())
    /// ```
    decode_eacr11 = yalivucu_decode_eacr11_pitched, u16;
    /// The same of a signed EAC R picture: values of -1023 to 1023.
    ///
    /// ```
    /// use yalivucu::typed::{decode_eacr11_signed, Picture};
    ///
    /// let mut image = [7; 16];
    /// decode_eacr11_signed(&[0x01, 0x10, 0, 0, 0, 0, 0, 0], Picture::new(4, 4), &mut image)?;
    /// assert_eq!(image, [8 - 3 * 8; 16]);
    /// # Ok::<(), yalivucu::typed::Refusal>(())
    /// ```
    decode_eacr11_signed = yalivucu_decode_eacr11_signed_pitched, i16;
    /// Reads all eleven bits of an EAC RG picture, in blocks of 16 bytes. A pixel has two values, red
    /// then green: those of (x, y) are `image[2 * (y * pitch + x)]` and the next, and `image` has
    /// twice as many elements. The pitch counts pixels.
    ///
    /// ```
    /// use yalivucu::typed::{decode_eacrg11, Picture, Refusal};
    ///
    /// let data = [0x80, 0x10, 0, 0, 0, 0, 0, 0, 0x40, 0x10, 0, 0, 0, 0, 0, 0];
    /// let mut image = [7; 32];
    /// assert_eq!(decode_eacrg11(&data, Picture::new(4, 4), &mut image[..31]), Err(Refusal::ShortImage));
    /// decode_eacrg11(&data, Picture::new(4, 4), &mut image)?;
    /// assert!(image.chunks(2).all(|pixel| pixel == [1004, 492]));
    /// # Ok::<(), Refusal>(())
    /// ```
    decode_eacrg11 = yalivucu_decode_eacrg11_pitched, u16;
    /// The same of a signed EAC RG picture: values of -1023 to 1023.
    ///
    /// ```
    /// use yalivucu::typed::{decode_eacrg11_signed, Picture};
    ///
    /// let data = [0x7F, 0xF0, 255, 255, 255, 255, 255, 255, 0xFF, 0x10, 0, 0, 0, 0, 0, 0];
    /// let mut image = [7; 6];
    /// decode_eacrg11_signed(&data, Picture::new(1, 2).with_pitch(2), &mut image)?;
    /// assert_eq!(image, [1023, -32, 7, 7, 1023, -32]);
    /// # Ok::<(), yalivucu::typed::Refusal>(())
    /// ```
    decode_eacrg11_signed = yalivucu_decode_eacrg11_signed_pitched, i16;
}
