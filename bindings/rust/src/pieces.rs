//! A picture whose bytes arrive in pieces.
use crate::sys;
use crate::typed::{Format, Picture, Refusal};

/// A picture whose bytes arrive in pieces of any length: each block is painted as soon as it is
/// whole, and at most 15 bytes are kept between two pieces. The image is lent to each piece; where
/// it comes back each time as it was left, the picture does not depend on where the bytes were cut.
///
/// ```
/// use yalivucu::typed::{Format, Picture, Pieces, Refusal};
///
/// let picture = Picture::new(4, 4);
/// let mut image = [7; 16];
/// let mut pieces = Pieces::start(Format::Etc1, picture, &image)?;
/// pieces.take(&[0x04, 0, 0], &mut image)?;
/// assert_eq!(image, [7; 16]); // no block is whole yet
/// assert_eq!(pieces.end(), Err(Refusal::ShortData));
/// let taken = pieces.take(&[0x02, 0, 0, 0, 0, 99], &mut image)?;
/// assert_eq!((taken.painted, taken.unused), (1, 1));
/// assert_eq!(image[..4], [0xff020202, 0xff020202, 0xffe90202, 0xffe90202]);
/// pieces.end()?;
/// # Ok::<(), Refusal>(())
/// ```
#[derive(Clone, Debug, PartialEq, Eq)]
pub struct Pieces {
    numbers: [usize; 5],
    kept: [u8; 15],
}

/// What came of a piece that was taken.
#[derive(Clone, Copy, Debug, PartialEq, Eq, Hash)]
pub struct Taken {
    /// How many blocks were painted.
    pub painted: usize,
    /// How many bytes, the last of the piece, lie behind the last block and were not used.
    pub unused: usize,
}

impl Pieces {
    /// Starts to read a picture; the image is only measured.
    ///
    /// Refuses with [`Refusal::TooLarge`], [`Refusal::ShortPitch`] or [`Refusal::ShortImage`], tested
    /// in that order.
    pub fn start(format: Format, picture: Picture, image: &[u32]) -> Result<Pieces, Refusal> {
        let starter = format.starter();
        let mut pieces = Pieces {
            numbers: [0; 5],
            kept: [0; 15],
        };
        // SAFETY: the pointer and the length are those of a slice that lives through the call, and
        // the two arrays are a local's own.
        let number = unsafe {
            starter(
                picture.width,
                picture.height,
                picture.pitch,
                image.as_ptr(),
                image.len(),
                &mut pieces.numbers,
                &mut pieces.kept,
            )
        };
        Refusal::answered(number, 0).map(|()| pieces)
    }

    /// Takes a piece: paints the blocks that it completes, up to the last, and keeps what is left of
    /// it for the next.
    ///
    /// Refuses with [`Refusal::ShortImage`] where the image has become too short, and then nothing is
    /// taken or changed.
    pub fn take(&mut self, bytes: &[u8], image: &mut [u32]) -> Result<Taken, Refusal> {
        let (mut painted, mut unused) = (0, 0);
        // SAFETY: the pointers and lengths are those of two slices that live through the call; the two
        // arrays are this value's own, and the two numbers locals.
        let number = unsafe {
            sys::yalivucu_take_piece(
                &mut self.numbers,
                &mut self.kept,
                bytes.as_ptr(),
                bytes.len(),
                image.as_mut_ptr(),
                image.len(),
                &mut painted,
                &mut unused,
            )
        };
        Refusal::answered(number, 0).map(|()| Taken { painted, unused })
    }

    /// Whether every block is painted: refuses with [`Refusal::ShortData`] where one is not. What is
    /// painted stays, and more pieces may come.
    pub fn end(&self) -> Result<(), Refusal> {
        // SAFETY: the two arrays are this value's own.
        let number = unsafe { sys::yalivucu_end_pieces(&self.numbers, &self.kept) };
        Refusal::answered(number, 0)
    }
}
