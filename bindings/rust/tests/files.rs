//! Files: the examples, and headers made here, opened and damaged.
use yalivucu::typed::{read, write_sheet, Container, File, Format, Orientation, Picture, Refusal};

const GLOW: &[u8] = include_bytes!("../../../examples/glow.ktx");
const KINDS: &[u8] = include_bytes!("../../../examples/kinds.ktx");
const OLD: &[u8] = include_bytes!("../../../examples/old.pkm");

/// Bytes that look like nothing in particular.
fn noise(length: usize) -> Vec<u8> {
    let mut word = 1_u32;
    let next = |_| {
        word = word.wrapping_mul(1_664_525).wrapping_add(1_013_904_223);
        (word >> 24) as u8
    };
    (0..length).map(next).collect()
}

fn put(bytes: &mut [u8], at: usize, number: u32) {
    bytes[at..at + 4].copy_from_slice(&number.to_le_bytes());
}

/// A side of level `n`.
fn halved(side: usize, n: usize) -> usize {
    (side >> n).max(1)
}

/// The bytes of the levels of a picture, each from the largest.
fn lengths(format: Format, width: usize, height: usize, levels: usize) -> Vec<usize> {
    (0..levels)
        .map(|n| Picture::new(halved(width, n), halved(height, n)).bytes(format).unwrap())
        .collect()
}

fn ktx1(number: u32, format: Format, width: usize, height: usize, levels: usize) -> Vec<u8> {
    let mut file = vec![0; 64];
    file[..16].copy_from_slice(b"\xabKTX 11\xbb\r\n\x1a\n\x01\x02\x03\x04");
    let words = [
        (16, 0x1401),
        (28, number),
        (36, width as u32),
        (40, height as u32),
        (52, 1),
        (56, levels as u32),
    ];
    for (at, word) in words {
        put(&mut file, at, word);
    }
    for length in lengths(format, width, height, levels.max(1)) {
        file.extend((length as u32).to_le_bytes());
        file.extend(noise(length));
    }
    file
}

fn ktx2(number: u32, format: Format, width: usize, height: usize, levels: usize) -> Vec<u8> {
    let mut file = vec![0; 80 + 24 * levels];
    file[..12].copy_from_slice(b"\xabKTX 20\xbb\r\n\x1a\n");
    let words = [
        (12, number),
        (20, width as u32),
        (24, height as u32),
        (36, 1),
        (40, levels as u32),
    ];
    for (at, word) in words {
        put(&mut file, at, word);
    }
    for (n, length) in lengths(format, width, height, levels).into_iter().enumerate().rev() {
        let start = file.len();
        put(&mut file, 80 + 24 * n, start as u32);
        put(&mut file, 88 + 24 * n, length as u32);
        file.extend(noise(length));
    }
    file
}

fn dds(four: &[u8; 4], format: Format, width: usize, height: usize, levels: usize) -> Vec<u8> {
    let mut file = vec![0; 128];
    file[..4].copy_from_slice(b"DDS ");
    for (at, word) in [(12, height as u32), (16, width as u32), (28, levels as u32), (80, 4)] {
        put(&mut file, at, word);
    }
    file[84..88].copy_from_slice(four);
    file.extend(noise(lengths(format, width, height, levels.max(1)).iter().sum()));
    file
}

fn dx10(number: u32, format: Format, width: usize, height: usize) -> Vec<u8> {
    let mut file = dds(b"DX10", format, width, height, 1);
    let mut more = [0; 20];
    put(&mut more, 0, number);
    put(&mut more, 4, 3);
    put(&mut more, 12, 1);
    file.splice(128..128, more);
    file
}

/// Opens a file that must open, and sees that every level lies where its blocks are, one after another of half
/// the sides, and shows what the reader of bare blocks shows.
fn opened(bytes: &[u8], container: Container, format: Format, width: usize, height: usize, levels: usize) -> File<'_> {
    let file = File::open(bytes).unwrap();
    assert_eq!((file.container(), file.format()), (container, format));
    assert_eq!(
        (file.width(), file.height(), file.level_count()),
        (width, height, levels)
    );
    let lent = bytes.as_ptr_range();
    for (n, level) in file.levels().enumerate() {
        let level = level.unwrap();
        let (w, h) = (halved(width, n), halved(height, n));
        assert_eq!((level.format(), level.width(), level.height()), (format, w, h));
        assert_eq!(Some(level.data().len()), level.picture().bytes(format));
        assert!(lent.contains(&level.data().as_ptr()) && level.data().as_ptr_range().end <= lent.end);
        let (mut image, mut bare) = (vec![7; w * h], vec![7; w * h]);
        assert_eq!(level.read(&mut image[..w * h - 1]), Err(Refusal::ShortImage));
        assert!(image.iter().all(|pixel| *pixel == 7));
        level.read(&mut image).unwrap();
        read(format, level.data(), Picture::new(w, h), &mut bare).unwrap();
        assert_eq!(image, bare);
    }
    assert_eq!(file.levels().count(), levels);
    assert_eq!(file.level(levels).unwrap_err(), Refusal::NoLevel);
    assert_eq!(file.level(usize::MAX).unwrap_err(), Refusal::NoLevel);
    file
}

fn refused(bytes: &[u8]) -> Refusal {
    File::open(bytes).unwrap_err()
}

/// The refusal of a file with another number in four bytes of it.
fn refused_with(bytes: &[u8], at: usize, number: u32) -> Refusal {
    let mut bytes = bytes.to_vec();
    put(&mut bytes, at, number);
    refused(&bytes)
}

#[test]
fn the_examples_are_opened() {
    let glow = opened(GLOW, Container::Ktx1, Format::Etc2Rgba8, 32, 32, 1);
    assert!(glow.is_big_endian() && !glow.is_srgb());
    assert_eq!(glow.left_over(), 0);
    let kinds = opened(KINDS, Container::Ktx1, Format::Etc2Rgb, 64, 16, 1);
    assert!(!kinds.is_big_endian());
    assert_eq!(kinds.orientation(), Orientation::Untold);
    let old = opened(OLD, Container::Pkm, Format::Etc1, 30, 18, 1);
    assert!(old.is_big_endian());
    assert_eq!(old.level(0).unwrap().data(), &OLD[16..]);
}

#[test]
fn the_orientation_is_told() {
    assert_eq!(File::open(GLOW).unwrap().orientation(), Orientation::TopDown);
}

#[test]
fn every_container_has_its_formats() {
    let srgb = opened(
        &ktx1(0x9277, Format::Etc2Rgba1, 37, 21, 6),
        Container::Ktx1,
        Format::Etc2Rgba1,
        37,
        21,
        6,
    )
    .is_srgb();
    assert!(srgb);
    opened(
        &ktx1(0x9273, Format::EacRgSigned, 1, 9, 4),
        Container::Ktx1,
        Format::EacRgSigned,
        1,
        9,
        4,
    );
    opened(
        &ktx1(0x83F0, Format::Bc1, 5, 3, 0),
        Container::Ktx1,
        Format::Bc1,
        5,
        3,
        1,
    );
}

#[test]
fn ktx_2_is_found_through_its_index() {
    let file = ktx2(146, Format::Bc7, 20, 9, 5);
    assert!(opened(&file, Container::Ktx2, Format::Bc7, 20, 9, 5).is_srgb());
    assert_eq!(refused_with(&file, 44, 1), Refusal::Supercompressed);
    assert_eq!(refused_with(&file, 12, 143), Refusal::NoFormat);
    assert_eq!(refused_with(&file, 36, 6), Refusal::NotFlat);
    assert_eq!(refused_with(&file, 40, 6), Refusal::SizesDisagree);
    assert_eq!(refused_with(&file, 88, 1), Refusal::SizesDisagree);
    assert_eq!(refused_with(&file, 84, 1), Refusal::LevelsMissing); // an offset above 2^32
    assert_eq!(refused_with(&file, 84, u32::MAX), Refusal::LevelsMissing);
    assert_eq!(refused(&file[..79]), Refusal::CutHeader);
    assert_eq!(refused(&file[..file.len() - 1]), Refusal::LevelsMissing);
}

#[test]
fn dds_is_found_by_four_letters_or_a_number() {
    opened(
        &dds(b"DXT1", Format::Bc1Alpha, 9, 9, 4),
        Container::Dds,
        Format::Bc1Alpha,
        9,
        9,
        4,
    );
    opened(
        &dds(b"DXT5", Format::Bc3, 9, 9, 0),
        Container::Dds,
        Format::Bc3,
        9,
        9,
        1,
    );
    let file = dx10(99, Format::Bc7, 12, 7);
    assert!(opened(&file, Container::Dds, Format::Bc7, 12, 7, 1).is_srgb());
    assert_eq!(refused_with(&file, 112, 0x200), Refusal::NotFlat);
    assert_eq!(refused_with(&file, 136, 4), Refusal::NotFlat);
    assert_eq!(refused_with(&file, 140, 2), Refusal::NotFlat);
    assert_eq!(refused_with(&file, 128, 95), Refusal::NoFormat);
    assert_eq!(refused_with(&file, 80, 0), Refusal::NoFormat);
    assert_eq!(refused_with(&file, 12, 0), Refusal::NoPixels);
    assert_eq!(refused_with(&file, 16, 65537), Refusal::TooLarge);
    assert_eq!(refused(&file[..147]), Refusal::CutHeader);
}

#[test]
fn a_sheet_is_a_file() {
    let mut room = [0; 21 + 64];
    write_sheet(Format::EacRg, Picture::new(8, 7), &noise(64), &mut room).unwrap();
    let file = opened(&room, Container::Sheet, Format::EacRg, 8, 7, 1);
    assert_eq!(
        (file.is_big_endian(), file.is_srgb(), file.left_over()),
        (false, false, 0)
    );
    assert_eq!(refused(&room[..84]), Refusal::CutShort);
    assert_eq!(refused(&room[..15]), Refusal::WrongBlocks);
    let written = write_sheet(Format::EacRg, Picture::new(0, 7), &[], &mut room).unwrap();
    assert_eq!(refused(&room[..written]), Refusal::NoPixels);
}

#[test]
fn what_decides_no_pixel_refuses_no_file() {
    for (at, number) in [
        (16, 0xFFFF_FFFF),
        (20, 0),
        (24, 7),
        (32, 0x1908),
        (44, 1),
        (48, 1),
        (52, 0),
    ] {
        let mut file = ktx1(0x9274, Format::Etc2Rgb, 8, 8, 1);
        put(&mut file, at, number);
        opened(&file, Container::Ktx1, Format::Etc2Rgb, 8, 8, 1);
    }
    for (at, number) in [(4, 24), (8, 0), (20, 0xFFFF_FFFF), (24, 7), (76, 0), (108, 0)] {
        let mut file = dds(b"DXT1", Format::Bc1Alpha, 8, 8, 1);
        put(&mut file, at, number);
        opened(&file, Container::Dds, Format::Bc1Alpha, 8, 8, 1);
    }
    let mut broken = ktx1(0x9274, Format::Etc2Rgb, 8, 8, 1);
    put(&mut broken, 60, 8);
    broken.splice(64..64, [0xFF; 8]);
    assert_eq!(
        opened(&broken, Container::Ktx1, Format::Etc2Rgb, 8, 8, 1).orientation(),
        Orientation::Untold
    );
}

#[test]
fn a_damaged_ktx_1_is_refused() {
    let file = ktx1(0x9278, Format::Etc2Rgba8, 8, 8, 2);
    for length in 0..file.len() {
        let due = match length {
            0..12 => Refusal::NoTexture,
            12..64 => Refusal::CutHeader,
            _ => Refusal::LevelsMissing,
        };
        assert_eq!(refused(&file[..length]), due);
    }
    assert_eq!(refused_with(&file, 12, 7), Refusal::NoVersion);
    assert_eq!(refused_with(&file, 28, 0x93B0), Refusal::NoFormat);
    assert_eq!(refused_with(&file, 44, 2), Refusal::NotFlat);
    assert_eq!(refused_with(&file, 36, 0), Refusal::NoPixels);
    assert_eq!(refused_with(&file, 36, 65537), Refusal::TooLarge);
    assert_eq!(refused_with(&file, 56, 5), Refusal::SizesDisagree);
    assert_eq!(refused_with(&file, 64, 63), Refusal::SizesDisagree);
    for keys in [u32::MAX, u32::MAX - 3, 200] {
        assert_eq!(refused_with(&file, 60, keys), Refusal::LevelsMissing);
    }
}

#[test]
fn bytes_behind_the_last_level_are_counted() {
    for mut file in [
        OLD.to_vec(),
        GLOW.to_vec(),
        dds(b"DXT1", Format::Bc1Alpha, 9, 9, 4),
        ktx2(145, Format::Bc7, 9, 9, 2),
    ] {
        file.extend([0; 3]);
        assert_eq!(File::open(&file).unwrap().left_over(), 3);
    }
}

#[test]
fn any_bytes_get_an_answer() {
    for whole in [
        OLD,
        GLOW,
        &ktx2(145, Format::Bc7, 9, 9, 2),
        &dx10(98, Format::Bc7, 8, 8),
    ] {
        for at in 0..whole.len().min(160) {
            for value in [0, 1, 0x7F, 0x80, 0xFF] {
                let mut bytes = whole.to_vec();
                bytes[at] = value;
                let Ok(file) = File::open(&bytes) else { continue };
                assert!(file.levels().all(|level| level.is_ok()));
            }
        }
    }
}

#[test]
fn files_and_levels_are_told_without_their_bytes() {
    let file = File::open(KINDS).unwrap();
    assert!(format!("{file:?}").starts_with("File { bytes: 580, container: Ktx1, format: Etc2Rgb"));
    let level = file.level(0).unwrap();
    assert_eq!(
        format!("{level:?}"),
        "Level { format: Etc2Rgb, width: 64, height: 16, data: 512 }"
    );
    assert_eq!(Container::Ktx1.to_string(), "KTX 1");
}
