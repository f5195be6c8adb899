//! Sheets: a picture's head and its blocks in one run of bytes.
use crate::sys;
use crate::typed::{Format, Picture, Refusal};

/// The formats by their numbers in a sheet.
const NUMBERED: [Format; 8] = [
    Format::Etc1,
    Format::Etc2Rgb,
    Format::Etc2Rgba1,
    Format::Etc2Rgba8,
    Format::EacR,
    Format::EacRSigned,
    Format::EacRg,
    Format::EacRgSigned,
];

/// What the head of a sheet says.
#[derive(Clone, Copy, Debug, PartialEq, Eq, Hash)]
pub struct Head {
    /// How the blocks are to be read.
    pub format: Format,
    /// The size; both sides are at most 16,384.
    pub picture: Picture,
}

/// What a sheet's head says, so that an image can be made for it. The whole sheet is looked at:
/// where this accepts, [`read_sheet`] can only refuse with [`Refusal::ShortImage`], and otherwise
/// it refuses alike.
///
/// Refuses with [`Refusal::CutShort`], [`Refusal::NoHead`], [`Refusal::TooLarge`],
/// [`Refusal::OtherKind`] or [`Refusal::WrongBlocks`], whichever a walk from front to back meets
/// first.
///
/// ```
/// use yalivucu::typed::{sheet_head, Refusal};
/// assert_eq!(sheet_head(&[]), Err(Refusal::CutShort));
/// ```
pub fn sheet_head(sheet: &[u8]) -> Result<Head, Refusal> {
    let (mut format, mut width, mut height) = (0, 0, 0);
    // SAFETY: the pointer and the length are those of a slice that lives through the call, and
    // the three numbers are locals of their own.
    let number = unsafe { sys::yalivucu_sheet_head(sheet.as_ptr(), sheet.len(), &mut format, &mut width, &mut height) };
    Refusal::answered(number, 0)?;
    let picture = Picture::new(width, height);
    let format = *NUMBERED.get(format).ok_or(Refusal::Unknown { number })?;
    Ok(Head { format, picture })
}

/// Reads a sheet: the picture that [`read`](crate::typed::read) shows of its blocks.
///
/// Refuses as [`sheet_head`] does, and last with [`Refusal::ShortImage`]; then `image` is as it
/// was.
///
/// ```
/// use yalivucu::typed::{read_sheet, sheet_head, write_sheet, Format, Picture, Refusal};
///
/// let mut room = [0; 64];
/// let blocks = [0x04, 0, 0, 0x02, 0, 0, 0, 0];
/// let written = write_sheet(Format::Etc1, Picture::new(4, 4), &blocks, &mut room)?;
/// let head = sheet_head(&room[..written])?;
/// let mut image = vec![0; head.picture.width * head.picture.height];
/// read_sheet(&room[..written], &mut image)?;
/// assert_eq!(image[..4], [0xff020202, 0xff020202, 0xffe90202, 0xffe90202]);
/// # Ok::<(), Refusal>(())
/// ```
pub fn read_sheet(sheet: &[u8], image: &mut [u32]) -> Result<(), Refusal> {
    // SAFETY: the pointers and lengths are those of two slices that live through the call.
    let number = unsafe { sys::yalivucu_read_sheet(sheet.as_ptr(), sheet.len(), image.as_mut_ptr(), image.len()) };
    Refusal::answered(number, 0)
}

/// Writes a sheet, 21 bytes and the blocks, to the front of `room`, and returns the number of its
/// bytes. Bytes behind it keep their value. A sheet has no gaps: the pitch is not looked at.
///
/// Refuses with [`Refusal::NoHead`] (a format that has no number), [`Refusal::TooLarge`],
/// [`Refusal::WrongBlocks`] (not exactly the blocks) or [`Refusal::ShortImage`] (too little room),
/// tested in that order, and then `room` is as it was.
///
/// ```
/// use yalivucu::typed::{write_sheet, Format, Picture, Refusal};
///
/// let mut room = [7; 28];
/// let refused = write_sheet(Format::EacR, Picture::new(4, 4), &[0; 8], &mut room);
/// assert_eq!(refused, Err(Refusal::ShortImage));
/// assert_eq!(room, [7; 28]);
/// ```
pub fn write_sheet(format: Format, picture: Picture, blocks: &[u8], room: &mut [u8]) -> Result<usize, Refusal> {
    let known = NUMBERED.iter().position(|numbered| *numbered == format);
    let mut written = 0;
    // SAFETY: the pointers and lengths are those of two slices that live through the call, and
    // `written` is a local of its own.
    let number = unsafe {
        sys::yalivucu_write_sheet(
            known.unwrap_or(NUMBERED.len()),
            picture.width,
            picture.height,
            blocks.as_ptr(),
            blocks.len(),
            room.as_mut_ptr(),
            room.len(),
            &mut written,
        )
    };
    Refusal::answered(number, 0)?;
    Ok(written)
}
