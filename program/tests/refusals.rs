//! Files that are refused, each by its number and with its name, and calls that are wrong.
mod common;
use common::{dds, entry, example, gl, ktx1, ktx2, pyramid, Room};
use std::fs;
use yalivucu::typed::Format;

fn changed(file: &[u8], at: usize, new: &[u8]) -> Vec<u8> {
    let mut file = file.to_vec();
    file[at..at + new.len()].copy_from_slice(new);
    file
}

fn bad_files() -> Vec<(&'static str, Vec<u8>, u32)> {
    let read = |name: &str| fs::read(example(name)).expect("an example");
    let (ktx, big, pkm) = (read("kinds.ktx"), read("glow.ktx"), read("old.pkm"));
    let word = |number: u32| number.to_le_bytes();
    let levels = pyramid(Format::Etc2Rgb, 16, 16, 5, 1);
    let mut short = ktx1(gl(Format::Etc2Rgb), (16, 16), &levels, false, &[]);
    let many = changed(&short, 56, &word(6));
    short.pop();
    let bc = dds(b"DXT5", 0, (16, 16), &pyramid(Format::Bc3, 16, 16, 1, 1));
    vec![
        ("empty", vec![], 21),
        ("fifteen bytes", pkm[..15].to_vec(), 20),
        ("KTX cut in its header", ktx[..63].to_vec(), 20),
        ("no magic", changed(&ktx, 0, b"\x89PNG"), 21),
        ("PKM 3.0", changed(&pkm, 4, b"30"), 22),
        ("KTX of no order", changed(&ktx, 12, b"\x01\x02\x04\x03"), 22),
        ("PKM 1.0 with ETC2", changed(&pkm, 6, b"\0\x01"), 23),
        ("the RGBA that was given up", changed(&changed(&pkm, 4, b"20"), 6, b"\0\x02"), 23),
        ("LATC", changed(&ktx, 28, &word(0x8C72)), 23),
        ("DDS of another kind", changed(&bc, 84, b"XXXX"), 23),
        ("padded width that lies", changed(&pkm, 8, b"\0\x24"), 24),
        ("level size that lies", changed(&ktx, 64, &word(511)), 24),
        ("a level told to be twice as long", changed(&ktx, 64, &word(1024)), 24),
        ("more levels than a picture has", many, 24),
        ("as many levels as can be told", changed(&ktx, 56, &word(u32::MAX)), 24),
        ("a volume", changed(&ktx, 44, &word(2)), 25),
        ("an array", changed(&ktx, 48, &word(5)), 25),
        ("a cube", changed(&big, 52, &6u32.to_be_bytes()), 25),
        ("a cube in DDS", changed(&bc, 112, &word(0xFE00)), 25),
        ("no height", changed(&ktx, 40, &word(0)), 26),
        ("too wide", changed(&ktx, 36, &word(65_537)), 1),
        ("one byte short", ktx[..ktx.len() - 1].to_vec(), 37),
        ("PKM one byte short", pkm[..pkm.len() - 1].to_vec(), 37),
        ("the last level cut", short, 37),
        ("key and value data past the end", changed(&ktx, 60, &word(u32::MAX)), 37),
    ]
}

fn bad_ktx2_and_sheets() -> Vec<(&'static str, Vec<u8>, u32)> {
    let two = ktx2(147, (16, 16), &pyramid(Format::Etc2Rgb, 16, 16, 5, 1));
    let word = |number: u32| number.to_le_bytes();
    vec![
        ("KTX 2 that is supercompressed", changed(&two, 44, &word(2)), 41),
        ("KTX 2 of a wrong length", changed(&two, 88, &word(1)), 24),
        ("KTX 2 cut", two[..two.len() - 1].to_vec(), 37),
        ("a sheet that is cut", b"\x09\0\0\0\x01\0\x01".to_vec(), 7),
    ]
}

#[test]
fn bad_files_are_refused_by_number_and_nothing_is_left() {
    let room = Room::new();
    for (what, data, number) in [bad_files(), bad_ktx2_and_sheets()].concat() {
        let name = format!("{what}.ktx");
        room.write(&name, &data);
        for words in
            [&["unpack", &name, "-o", "x.png"][..], &["info", &name], &["check", &name], &["sheet", &name, "x.sheet"]]
        {
            let ran = room.run(words);
            ran.refuses(number, what);
            assert!(ran.out.is_empty(), "{what}: {ran:?}");
        }
        for words in [&["info", "--json", &name], &["check", "--json", &name]] {
            let ran = room.run(words);
            let said: serde_json::Value = serde_json::from_str(&ran.out).expect("JSON");
            assert!(ran.status == 1 && said["refused"]["number"] == number && said["file"] == name, "{what}: {ran:?}");
        }
        assert_eq!(room.list(), std::slice::from_ref(&name), "{what}");
        fs::remove_file(room.path(&name)).expect("a file");
    }
}

#[test]
fn fields_that_decide_no_pixel_refuse_nothing() {
    let room = Room::new();
    let ktx = fs::read(example("kinds.ktx")).expect("an example");
    let word = |number: u32| number.to_le_bytes();
    let keys = |keys: &[u8]| ktx1(gl(Format::Etc2Rgb), (16, 16), &pyramid(Format::Etc2Rgb, 16, 16, 1, 1), false, keys);
    for file in [
        changed(&ktx, 16, &word(0x1401)),
        changed(&ktx, 20, &word(4)),
        changed(&ktx, 32, &word(0x1908)),
        changed(&ktx, 44, &word(1)),
        changed(&ktx, 48, &word(1)),
        changed(&ktx, 52, &word(0)),
        changed(&ktx, 56, &word(0)),
        keys(&entry(false, b"endless!")),
        keys(&[9, 9, 9, 9]),
        keys(&entry(false, &[b"key\0".as_slice(), &[0; 200_001]].concat())),
    ] {
        room.write("a.ktx", &file);
        room.run(&["unpack", "--force", "a.ktx", "a.png"]).is_done();
        room.run(&["info", "a.ktx"]).is_done();
    }
}

#[test]
fn a_wrong_call_says_which_word_is_wrong() {
    let room = Room::new();
    fs::copy(example("old.pkm"), room.path("old.pkm")).expect("a copy");
    for (words, wrong) in [
        (&[][..], "Usage"),
        (&["unpack"], "FILE"),
        (&["unpak", "old.pkm"], "unpak"),
        (&["unpack", "--unknown", "old.pkm"], "--unknown"),
        (&["unpack", "--level", "two", "old.pkm"], "two"),
        (&["unpack", "--level", "-1", "old.pkm"], "-1"),
        (&["unpack", "--level", "1", "--levels", "old.pkm"], "--levels"),
        (&["unpack", "--level", "1", "--level", "1", "old.pkm"], "--level"),
        (&["unpack", "--as", "dxt1", "old.pkm"], "dxt1"),
        (&["unpack", "--raw", "dxt1", "4x4", "old.pkm"], "dxt1"),
        (&["unpack", "--raw", "etc1", "fourx4", "old.pkm"], "fourx4"),
        (&["unpack", "--raw", "etc1", "4", "old.pkm"], "'4'"),
        (&["unpack", "--raw", "etc1", "+4x4", "old.pkm"], "+4x4"),
        (&["unpack", "--raw", "etc1", "99999999999999999999x4", "old.pkm"], "99999999999999999999x4"),
        (&["unpack", "--bits", "12", "old.pkm"], "12"),
        (&["unpack", "--threads", "0", "old.pkm"], "0"),
        (&["unpack", "-o", "a.png", "--into", ".", "old.pkm"], "--into"),
        (&["unpack", "--levels", "-o", "-", "old.pkm"], "--levels"),
        (&["check"], "FILE"),
        (&["check", "--force", "old.pkm"], "--force"),
        (&["info", "--level", "0", "old.pkm"], "--level"),
        (&["sheet", "old.pkm"], "OUT.sheet"),
        (&["degrees", "old.pkm"], "--legend"),
        (&["compare", "old.pkm", "a.png"], "--tolerance"),
        (&["compare", "old.pkm", "a.png", "--tolerance", "256"], "256"),
        (&["completions", "no-shell"], "no-shell"),
    ] {
        room.run(words).is_a_wrong_call(wrong);
    }
    assert_eq!(room.list(), ["old.pkm"]);
}

#[test]
fn sizes_of_bare_blocks() {
    let room = Room::new();
    room.write("bare", &[0; 8]);
    room.run(&["unpack", "--raw", "etc1", "0x4", "bare", "a.png"]).refuses(26, "bare");
    room.run(&["unpack", "--raw", "etc1", "65537x4", "bare", "a.png"]).refuses(1, "bare");
    room.run(&["unpack", "--raw", "etc1", "64x64", "bare", "a.png"]).refuses(2, "bare");
    room.run(&["unpack", "--raw", "etc1", "18446744073709551615x18446744073709551615", "bare", "a.png"])
        .refuses(1, "bare");
    room.run(&["unpack", "--raw", "etc1", "4x4", "bare", "a.png"]).is_done();
}
