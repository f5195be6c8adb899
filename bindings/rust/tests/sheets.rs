//! Sheets, written and read back in every format, and damaged.
use yalivucu::typed::{read, read_sheet, sheet_head, write_sheet, Format, Head, Picture, Refusal};

const STOOD: u32 = 0x1111_1111;

/// Bytes that look like nothing in particular.
fn noise(length: usize) -> Vec<u8> {
    let mut word = 1_u32;
    let next = |_| {
        word = word.wrapping_mul(1_664_525).wrapping_add(1_013_904_223);
        (word >> 24) as u8
    };
    (0..length).map(next).collect()
}

fn sheet_of(format: Format, picture: Picture) -> Vec<u8> {
    let blocks = noise(picture.bytes(format).unwrap());
    let mut room = vec![0xEE; 21 + blocks.len()];
    assert_eq!(write_sheet(format, picture, &blocks, &mut room), Ok(room.len()));
    room
}

/// The formats that have a number in a sheet, the first eight, and those that have none.
fn by_number() -> (Vec<Format>, Vec<Format>) {
    let (some, none) = Format::ALL.split_at(8);
    (some.to_vec(), none.to_vec())
}

#[test]
fn a_format_without_a_number_is_refused() {
    for format in by_number().1 {
        let mut room = [0xEE; 64];
        assert_eq!(
            write_sheet(format, Picture::new(4, 4), &[0; 16], &mut room),
            Err(Refusal::NoHead)
        );
        assert_eq!(room, [0xEE; 64]);
    }
}

#[test]
fn a_sheet_shows_what_the_plain_reader_shows() {
    for format in by_number().0 {
        for (width, height) in [(0, 0), (7, 0), (1, 1), (4, 4), (9, 5), (16384, 1)] {
            let picture = Picture::new(width, height);
            let sheet = sheet_of(format, picture);
            assert_eq!(sheet_head(&sheet), Ok(Head { format, picture }));
            let mut shown = vec![STOOD; width * height + 2];
            let mut plain = shown.clone();
            assert_eq!(read_sheet(&sheet, &mut shown), Ok(()));
            assert_eq!(read(format, &sheet[21..], picture, &mut plain), Ok(()));
            assert_eq!(shown, plain);
        }
    }
}

#[test]
fn a_damaged_sheet_paints_nothing() {
    let sheet = sheet_of(Format::Etc2Rgba8, Picture::new(5, 4));
    let refused = |bytes: &[u8], elements: usize| {
        let mut image = vec![STOOD; elements];
        let refusal = read_sheet(bytes, &mut image).unwrap_err();
        assert!(image.iter().all(|element| *element == STOOD));
        refusal
    };
    for length in 0..sheet.len() {
        let due = if length == 15 {
            Refusal::WrongBlocks
        } else {
            Refusal::CutShort
        };
        assert_eq!(refused(&sheet[..length], 20), due);
        assert_eq!(sheet_head(&sheet[..length]), Err(due));
    }
    assert_eq!(refused(&sheet, 19), Refusal::ShortImage);
    let changed = |at: usize, byte: u8| {
        let mut sheet = sheet.clone();
        sheet[at] = byte;
        sheet
    };
    assert_eq!(refused(&changed(4, 2), 20), Refusal::NoHead);
    assert_eq!(refused(&changed(6, 8), 20), Refusal::NoHead);
    assert_eq!(refused(&changed(9, 1), 20), Refusal::TooLarge);
    assert_eq!(refused(&changed(19, 1), 20), Refusal::OtherKind);
    assert_eq!(refused(&changed(7, 4), 20), Refusal::WrongBlocks);
}

#[test]
fn the_writer_refuses_and_writes_nothing() {
    let mut room = [0xEE; 60];
    let write = |width: usize, bytes: usize, room: &mut [u8]| {
        write_sheet(Format::EacRgSigned, Picture::new(width, 4), &vec![0; bytes], room)
    };
    assert_eq!(write(usize::MAX, 0, &mut []), Err(Refusal::TooLarge));
    assert_eq!(write(4, 17, &mut []), Err(Refusal::WrongBlocks));
    assert_eq!(write(4, 16, &mut room[..36]), Err(Refusal::ShortImage));
    assert_eq!(room, [0xEE; 60]);
    assert_eq!(write(4, 16, &mut room), Ok(37));
    assert_eq!(room[37..], [0xEE; 23]);
}
