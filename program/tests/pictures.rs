//! `unpack`: every format in every container, read back by Pillow and libpng and held to the library's pixels.
mod common;
use common::{blocks, dds, entry, example, gl, ktx1, ktx2, pkm, pyramid, seen, single, Room};
use std::fs;
use yalivucu::typed::{self, read, File, Format, Orientation, Picture};

const SIZE: (usize, usize) = (30, 18);

/// The samples of pixels: so many of red, green, blue and alpha.
fn samples(image: &[u32], channels: usize) -> Vec<u8> {
    let of = |pixel: &u32| {
        let [alpha, red, green, blue] = pixel.to_be_bytes();
        [red, green, blue, alpha][..channels].to_vec()
    };
    image.iter().flat_map(of).collect()
}

/// Channels of a format in a PNG.
fn channels(format: Format) -> (usize, &'static str) {
    match format!("{format:?}").as_str() {
        "EacR" | "EacRSigned" | "Bc4" | "Bc4Signed" => (1, "L"),
        "Etc1" | "Etc2Rgb" | "Bc1" | "EacRg" | "EacRgSigned" | "Bc5" | "Bc5Signed" => (3, "RGB"),
        _ => (4, "RGBA"),
    }
}

fn pixels(format: Format, data: &[u8], size: (usize, usize)) -> Vec<u32> {
    let mut image = vec![0; size.0 * size.1];
    read(format, data, Picture::new(size.0, size.1), &mut image).expect("a picture");
    image
}

#[track_caller]
fn shows(room: &Room, png: &str, format: Format, data: &[u8], size: (usize, usize)) {
    let (count, mode) = channels(format);
    let found = seen(&room.path(png));
    assert_eq!(found.facts["mode"], mode, "{format:?}");
    assert_eq!(
        (found.facts["width"].as_u64(), found.facts["height"].as_u64()),
        (Some(size.0 as u64), Some(size.1 as u64))
    );
    assert!(found.samples == samples(&pixels(format, data, size), count), "{format:?}: other samples");
}

#[test]
fn every_format_in_ktx_1_of_either_byte_order() {
    for format in Format::ALL {
        let room = Room::new();
        let data = blocks(format, SIZE.0, SIZE.1, 7);
        for big in [false, true] {
            room.write("a.ktx", &ktx1(gl(format), SIZE, std::slice::from_ref(&data), big, &[]));
            room.run(&["unpack", "--force", "a.ktx", "a.png"]).is_done();
            shows(&room, "a.png", format, &data, SIZE);
        }
    }
}

#[test]
fn every_container() {
    let room = Room::new();
    let etc =
        [(147, Format::Etc2Rgb), (151, Format::Etc2Rgba8), (153, Format::EacR), (137, Format::Bc3), (145, Format::Bc7)];
    for (vk, format) in etc {
        let levels = pyramid(format, SIZE.0, SIZE.1, 4, 3);
        room.write("a.ktx2", &ktx2(vk, SIZE, &levels));
        room.run(&["unpack", "--force", "--level", "1", "a.ktx2", "a.png"]).is_done();
        shows(&room, "a.png", format, &levels[1], (SIZE.0 / 2, SIZE.1 / 2));
    }
    for (letters, number, format) in
        [(b"DXT1", 0, Format::Bc1Alpha), (b"DXT5", 0, Format::Bc3), (b"DX10", 98, Format::Bc7)]
    {
        let levels = pyramid(format, SIZE.0, SIZE.1, 5, 4);
        room.write("a.dds", &dds(letters, number, SIZE, &levels));
        for (level, data) in levels.iter().enumerate() {
            room.run(&["unpack", "--force", "--level", &level.to_string(), "a.dds", "a.png"]).is_done();
            shows(&room, "a.png", format, data, ((SIZE.0 >> level).max(1), (SIZE.1 >> level).max(1)));
        }
    }
    let data = blocks(Format::Etc2Rgba1, SIZE.0, SIZE.1, 5);
    room.write("a.pkm", &pkm(b"20", 4, SIZE, &data));
    room.run(&["unpack", "--force", "a.pkm", "a.png"]).is_done();
    shows(&room, "a.png", Format::Etc2Rgba1, &data, SIZE);
    room.run(&["sheet", "a.pkm", "a.sheet"]).is_done();
    room.run(&["unpack", "--force", "a.sheet", "a.png"]).is_done();
    shows(&room, "a.png", Format::Etc2Rgba1, &data, SIZE);
}

#[test]
fn the_examples_are_the_stored_pictures() {
    let room = Room::new();
    for (file, png) in [("glow.ktx", "glow.png"), ("kinds.ktx", "kinds.png"), ("old.pkm", "old.png")] {
        room.run(&["unpack", &example(file), png]).is_done();
        let (ours, stored) = (seen(&room.path(png)), seen(example(png).as_ref()));
        let is_rgba = ours.facts["mode"] == "RGBA";
        let stored: Vec<u8> =
            stored.samples.chunks(4).flat_map(|pixel| &pixel[..if is_rgba { 4 } else { 3 }]).copied().collect();
        assert!(ours.samples == stored, "{file}");
    }
}

#[test]
fn every_level_with_one_call() {
    let room = Room::new();
    let levels = pyramid(Format::Etc2Rgb, 20, 20, 5, 1);
    for big in [false, true] {
        room.write("levels.ktx", &ktx1(gl(Format::Etc2Rgb), (20, 20), &levels, big, &entry(big, b"a\0b")));
        let said = room.run(&["unpack", "--force", "--levels", "-o", "out.png", "levels.ktx"]);
        said.is_done();
        assert!(said.out.contains("5 levels from out.0.png on"), "{said:?}");
        for (level, data) in levels.iter().enumerate() {
            let side = (20 >> level).max(1);
            shows(&room, &format!("out.{level}.png"), Format::Etc2Rgb, data, (side, side));
        }
    }
    fs::create_dir(room.path("into")).expect("a folder");
    room.run(&["unpack", "--levels", "--into", "into", "levels.ktx"]).is_done();
    assert_eq!(fs::read(room.path("into/levels.ktx.3.png")).ok(), Some(room.read("out.3.png")));
    room.run(&["unpack", "--level", "5", "levels.ktx", "x.png"]).refuses(38, "levels.ktx");
    room.run(&["unpack", "--level", &usize::MAX.to_string(), "levels.ktx", "x.png"]).refuses(38, "levels.ktx");
    let said = room.run(&["unpack", "--level", "2", "levels.ktx", "level.png"]);
    assert!(said.out.contains("5 x 5, level 2 of 5, to level.png"), "{said:?}");
}

#[test]
fn pictures_of_many_strips_on_any_number_of_threads() {
    let room = Room::new();
    let size = (1000, 1003);
    for format in [Format::Etc2Rgba8, Format::EacR, Format::Bc1] {
        let data = blocks(format, size.0, size.1, 9);
        room.write("a.ktx", &single(format, size, &data));
        room.run(&["unpack", "--force", "--threads", "1", "a.ktx", "one.png"]).is_done();
        shows(&room, "one.png", format, &data, size);
        for threads in ["2", "3", "16"] {
            room.run(&["unpack", "--force", "--threads", threads, "a.ktx", "many.png"]).is_done();
            assert!(room.read("many.png") == room.read("one.png"), "{threads} threads");
        }
    }
}

#[test]
fn bare_blocks_and_another_rule() {
    let room = Room::new();
    for (name, format) in [("etc2-rgb", Format::Etc2Rgb), ("bc7", Format::Bc7), ("eac-rg-signed", Format::EacRgSigned)]
    {
        let data = blocks(format, SIZE.0, SIZE.1, 2);
        room.write("bare", &data);
        room.run(&["unpack", "--force", "--raw", name, "30x18", "bare", "a.png"]).is_done();
        shows(&room, "a.png", format, &data, SIZE);
        room.write("bare", &[data.as_slice(), b"\0"].concat());
        let words = ["unpack", "--force", "--raw", name, "30x18", "bare", "a.png"];
        let refused = room.run(&words);
        refused.refuses(6, "bare");
        assert!(refused.err.contains("--more"), "{refused:?}");
        room.run(&[&words[..], &["--more"]].concat()).is_done();
        shows(&room, "a.png", format, &data, SIZE);
        room.write("bare", &data[1..]);
        room.run(&words).refuses(2, "bare");
    }
    let data = blocks(Format::Etc2Rgb, SIZE.0, SIZE.1, 2);
    room.write("a.ktx", &single(Format::Etc1, SIZE, &data));
    room.run(&["unpack", "--force", "--as", "etc2-rgb", "a.ktx", "a.png"]).is_done();
    shows(&room, "a.png", Format::Etc2Rgb, &data, SIZE);
    room.run(&["unpack", "--force", "--as", "etc2-rgba8", "a.ktx", "a.png"]).refuses(40, "a.ktx");
}

#[test]
fn etc1_is_read_strictly() {
    let room = Room::new();
    let mut data = blocks(Format::Etc1, SIZE.0, SIZE.1, 2);
    room.write("a.pkm", &pkm(b"10", 0, SIZE, &data));
    room.run(&["unpack", "a.pkm", "good.png"]).is_done();
    shows(&room, "good.png", Format::Etc1, &data, SIZE);
    data[8 * 11..8 * 12].copy_from_slice(&[0x04, 0, 0, 0x02, 0, 0, 0, 0]);
    room.write("a.pkm", &pkm(b"10", 0, SIZE, &data));
    let refused = room.run(&["unpack", "a.pkm", "a.png"]);
    refused.refuses(4, "a.pkm");
    for part in ["block 11", "pixel column 12 and row 4", "--as etc2-rgb", "--wrap", "Level 0 of 1"] {
        assert!(refused.err.contains(part), "{part}: {refused:?}");
    }
    assert_eq!(room.list(), ["a.pkm", "good.png"]);
    room.run(&["unpack", "--wrap", "a.pkm", "wrap.png"]).is_done();
    shows(&room, "wrap.png", Format::Etc1, &data, SIZE);
    room.run(&["unpack", "--as", "etc2-rgb", "a.pkm", "new.png"]).is_done();
    shows(&room, "new.png", Format::Etc2Rgb, &data, SIZE);
    assert!(room.read("wrap.png") != room.read("new.png"));
}

#[test]
fn bytes_left_over_behind_etc1_refuse_it() {
    let room = Room::new();
    let data = blocks(Format::Etc1, SIZE.0, SIZE.1, 2);
    for more in [1, 8, data.len()] {
        room.write("a.pkm", &[pkm(b"10", 0, SIZE, &data), vec![0; more]].concat());
        let refused = room.run(&["unpack", "a.pkm", "a.png"]);
        refused.refuses(6, "a.pkm");
        assert!(refused.err.contains(&format!("{more} byte")) && refused.err.contains("--more"), "{refused:?}");
        room.run(&["unpack", "--as", "etc2-rgb", "a.pkm", "a.png"]).refuses(6, "a.pkm");
        room.run(&["unpack", "--force", "--more", "a.pkm", "b.png"]).is_done();
        shows(&room, "b.png", Format::Etc1, &data, SIZE);
    }
    let rgb = blocks(Format::Etc2Rgb, SIZE.0, SIZE.1, 2);
    room.write("b.pkm", &[pkm(b"20", 1, SIZE, &rgb), vec![0; 9]].concat());
    room.run(&["unpack", "--force", "b.pkm", "b.png"]).is_done();
}

/// All eleven bits of an EAC picture, as the library has them.
fn whole_values(format: Format, data: &[u8]) -> Vec<i32> {
    let picture = Picture::new(SIZE.0, SIZE.1);
    let own = if matches!(format, Format::EacR | Format::EacRSigned) { 1 } else { 2 };
    let (mut plain, mut signed) = (vec![0u16; own * SIZE.0 * SIZE.1], vec![0i16; own * SIZE.0 * SIZE.1]);
    match format {
        Format::EacR => typed::decode_eacr11(data, picture, &mut plain),
        Format::EacRg => typed::decode_eacrg11(data, picture, &mut plain),
        Format::EacRSigned => typed::decode_eacr11_signed(data, picture, &mut signed),
        _ => typed::decode_eacrg11_signed(data, picture, &mut signed),
    }
    .expect("the values");
    if matches!(format, Format::EacR | Format::EacRg) {
        plain.into_iter().map(i32::from).collect()
    } else {
        signed.into_iter().map(i32::from).collect()
    }
}

const EAC: [(Format, usize, usize, bool); 4] = [
    (Format::EacR, 1, 1, false),
    (Format::EacRSigned, 1, 1, true),
    (Format::EacRg, 2, 3, false),
    (Format::EacRgSigned, 2, 3, true),
];

#[test]
fn eleven_bits_in_sixteen() {
    let room = Room::new();
    for (format, own, count, is_signed) in EAC {
        let data = blocks(format, SIZE.0, SIZE.1, 8);
        room.write("a.ktx", &single(format, SIZE, &data));
        room.run(&["unpack", "--force", "--bits", "16", "a.ktx", "a.png"]).is_done();
        let found = seen(&room.path("a.png"));
        assert_eq!(found.facts["bits"], 16);
        assert_eq!(found.facts["sBIT"], serde_json::json!(vec![11; count]));
        let read: Vec<i32> =
            found.samples.chunks(2).map(|pair| i32::from(u16::from_be_bytes([pair[0], pair[1]]))).collect();
        for (pixel, own) in read.chunks(count).zip(whole_values(format, &data).chunks(own)) {
            let back: Vec<i32> = pixel.iter().map(|sample| (sample >> 5) - if is_signed { 1023 } else { 0 }).collect();
            assert_eq!(back[..own.len()], *own);
            assert!(pixel.iter().all(|sample| sample & 31 == sample >> 11), "the bits are repeated");
        }
    }
    room.write("a.ktx", &single(Format::Bc3, SIZE, &blocks(Format::Bc3, SIZE.0, SIZE.1, 8)));
    room.run(&["unpack", "--force", "--bits", "16", "a.ktx", "a.png"]).refuses(40, "a.ktx");
}

#[test]
fn the_numbers_themselves() {
    let room = Room::new();
    let unpacked = |format: Format, data: &[u8]| {
        room.write("a.ktx", &single(format, SIZE, data));
        room.run(&["unpack", "--force", "a.ktx", "a.npy"]).is_done();
        let npy = room.read("a.npy");
        let start = 10 + usize::from(u16::from_le_bytes([npy[8], npy[9]]));
        assert_eq!((start % 64, &npy[..8]), (0, &b"\x93NUMPY\x01\x00"[..]));
        (String::from_utf8_lossy(&npy[10..start]).into_owned(), npy[start..].to_vec())
    };
    for (format, own, _, is_signed) in EAC {
        let data = blocks(format, SIZE.0, SIZE.1, 8);
        let (header, bytes) = unpacked(format, &data);
        let shape = if own == 1 { "(18, 30)" } else { "(18, 30, 2)" };
        assert!(header.contains(if is_signed { "'<i2'" } else { "'<u2'" }) && header.contains(shape), "{header}");
        let numbers = bytes.chunks(2).map(|pair| i32::from(i16::from_le_bytes([pair[0], pair[1]])));
        assert_eq!(numbers.collect::<Vec<_>>(), whole_values(format, &data));
    }
    let data = blocks(Format::Bc3, SIZE.0, SIZE.1, 8);
    let (header, bytes) = unpacked(Format::Bc3, &data);
    assert!(header.contains("'|u1'") && header.contains("(18, 30, 4)"), "{header}");
    assert!(bytes == samples(&pixels(Format::Bc3, &data, SIZE), 4));
}

#[test]
fn srgb_is_said_where_the_file_says_it() {
    let room = Room::new();
    for (number, is_srgb) in [(0x9278, false), (0x9279, true)] {
        let data = blocks(Format::Etc2Rgba8, 8, 8, 1);
        room.write("a.ktx", &ktx1(number, (8, 8), &[data], false, &[]));
        room.run(&["unpack", "--force", "a.ktx", "a.png"]).is_done();
        let chunks = seen(&room.path("a.png")).facts["chunks"].to_string();
        assert_eq!(chunks.contains("sRGB"), is_srgb, "{chunks}");
    }
}

#[test]
fn a_bottom_up_picture_is_turned_only_where_it_is_asked_for() {
    let room = Room::new();
    for size in [(30, 18), (500, 1001)] {
        let data = blocks(Format::Etc2Rgb, size.0, size.1, 6);
        let image = pixels(Format::Etc2Rgb, &data, size);
        let turned: Vec<u32> = image.chunks(size.0).rev().flatten().copied().collect();
        for told in ["S=r,T=u", "S=r,T=d"] {
            let keys = entry(false, format!("KTXorientation\0{told}\0").as_bytes());
            let file = ktx1(gl(Format::Etc2Rgb), size, std::slice::from_ref(&data), false, &keys);
            let is_said = File::open(&file).expect("a file").orientation() == Orientation::BottomUp;
            room.write("a.ktx", &file);
            let said = room.run(&["unpack", "--force", "a.ktx", "a.png"]);
            said.is_done();
            assert_eq!(said.out.contains("--upright"), is_said, "{said:?}");
            assert!(seen(&room.path("a.png")).samples == samples(&image, 3), "as stored");
            room.run(&["unpack", "--force", "--upright", "a.ktx", "a.png"]).is_done();
            let expected = if is_said { &turned } else { &image };
            assert!(seen(&room.path("a.png")).samples == samples(expected, 3), "{told} --upright");
        }
    }
}
