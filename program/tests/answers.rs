//! check, info, sheet, degrees, compare, bake, manual and completions.
mod common;
use common::{blocks, entry, example, gl, ktx1, pkm, pyramid, single, Room};
use serde_json::{json, Value};
use std::fs;
use yalivucu::typed::{self, degrees, Format, Legend, Orientation, Picture};

const RED: [u8; 8] = [0xf8, 0, 0, 2, 0, 0, 0, 0];
const CLEAR: [u8; 8] = [0xf8, 0, 0, 0, 0, 0, 0, 0];

#[test]
fn check_says_whether_an_older_viewer_may_show_it() {
    let room = Room::new();
    let ran = room.run(&["check", &example("old.pkm")]);
    ran.is_done();
    assert!(ran.out.contains("old.pkm: level 0 of 1: a strict ETC1 reader may show it."), "{ran:?}");
    let ran = room.run(&["check", &example("kinds.ktx"), &example("old.pkm")]);
    assert!(ran.status == 1 && ran.out.contains("block 32") && ran.out.contains("pixel column 0 and row 8"), "{ran:?}");
    assert!(ran.out.contains("Refusal 4:") && ran.out.contains("old.pkm: level 0 of 1"), "{ran:?}");
    room.run(&["check", &example("glow.ktx")]).refuses(27, "glow.ktx");
    for (data, number, words) in [
        ([RED, RED, RED, RED].concat(), 0, "an opaque-only viewer may show it"),
        ([RED, RED, CLEAR, CLEAR].concat(), 11, "Block 2 begins at pixel column 0 and row 4"),
        ([RED, RED, RED, CLEAR].concat(), 11, "Block 3 begins at pixel column 4 and row 4"),
        ([RED, RED, RED, RED, CLEAR].concat(), 0, "an opaque-only viewer may show it"),
    ] {
        room.write("a.pkm", &pkm(b"20", 4, (8, 8), &data));
        let ran = room.run(&["check", "a.pkm"]);
        assert!(ran.status == i32::from(number > 0) && ran.out.contains(words), "{ran:?}");
        assert!(number == 0 || ran.out.contains(&format!("Refusal {number}:")), "{ran:?}");
    }
}

#[test]
fn check_looks_at_every_level_and_at_what_is_left_over() {
    let room = Room::new();
    let mut levels = pyramid(Format::Etc1, 16, 16, 4, 3);
    levels[2][..4].copy_from_slice(&[0x04, 0, 0, 0x02]);
    room.write("a.ktx", &ktx1(gl(Format::Etc1), (16, 16), &levels, true, &[]));
    let ran = room.run(&["check", "a.ktx"]);
    assert_eq!((ran.status, ran.out.lines().count()), (1, 4), "{ran:?}");
    assert!(ran.out.contains("a.ktx: level 2 of 4: a strict ETC1 reader must not show it: Refusal 4"), "{ran:?}");
    assert!(ran.out.contains("a.ktx: level 3 of 4: a strict ETC1 reader may show it."), "{ran:?}");
    let said: Value = serde_json::from_str(&room.run(&["check", "--json", "a.ktx"]).out).expect("JSON");
    assert_eq!(
        (&said["may_show"], &said["levels"][2]["block"], &said["levels"][2]["pixel"]),
        (&json!(false), &json!(0), &json!([0, 0]))
    );
    assert_eq!((&said["levels"][2]["number"], &said["levels"][3]["may_show"]), (&json!(4), &json!(true)));
    let good = ktx1(gl(Format::Etc1), (16, 16), &pyramid(Format::Etc1, 16, 16, 4, 3), false, &[]);
    room.write("b.ktx", &good);
    let ran = room.run(&["check", "b.ktx"]);
    assert!(ran.status == 0 && ran.out == "b.ktx: levels 0 to 3 of 4: a strict ETC1 reader may show it.\n", "{ran:?}");
    room.write("b.ktx", &[good, vec![0; 5]].concat());
    let ran = room.run(&["check", "b.ktx"]);
    assert!(ran.status == 1 && ran.out.contains("Refusal 6:") && ran.out.contains("5 bytes"), "{ran:?}");
    assert_eq!(room.run(&["check", "--more", "b.ktx"]).status, 0);
    let said: Value = serde_json::from_str(&room.run(&["check", "--json", "b.ktx"]).out).expect("JSON");
    assert_eq!((&said["may_show"], &said["left_over"]["number"]), (&json!(false), &json!(6)));
}

#[test]
fn info_tells_what_the_library_tells() {
    let room = Room::new();
    for (k, format) in Format::ALL.into_iter().enumerate() {
        for big in [false, true] {
            for told in ["S=r,T=d", "S=r,T=u", ""] {
                let keys =
                    if told.is_empty() { vec![] } else { entry(big, format!("KTXorientation\0{told}\0").as_bytes()) };
                let mut file = ktx1(gl(format), (20, 12), &pyramid(format, 20, 12, 3, 1), big, &keys);
                file.extend(vec![0; k]);
                room.write("a.ktx", &file);
                let said: Value = serde_json::from_str(&room.run(&["info", "--json", "a.ktx"]).out).expect("JSON");
                assert_eq!(said["container"], "KTX 1");
                assert_eq!((&said["width"], &said["height"], &said["left_over"]), (&json!(20), &json!(12), &json!(k)));
                assert_eq!(said["block_bytes"], format.block_size());
                assert_eq!(said["byte_order"], if big { "big endian" } else { "little endian" });
                let orientation = match typed::File::open(&file).expect("a file").orientation() {
                    Orientation::TopDown => json!("top down"),
                    Orientation::BottomUp => json!("bottom up"),
                    Orientation::Untold => Value::Null,
                };
                assert_eq!(said["orientation"], orientation);
                assert_eq!(said["levels"].as_array().map(Vec::len), Some(3));
                let line = room.run(&["info", "a.ktx"]).out;
                assert!(
                    line.starts_with("a.ktx: KTX 1, ") && line.contains("20 x 12") && line.contains("3 levels, linear"),
                    "{line}"
                );
                assert_eq!(line.contains("big endian"), big, "{line}");
                assert_eq!((line.lines().count(), line.contains(&format!("{k} bytes left over"))), (1, k > 0));
            }
        }
    }
    for (number, is_srgb) in [(0x9275, true), (0x9274, false), (0x8C4F, true)] {
        let format = if number == 0x8C4F { Format::Bc3 } else { Format::Etc2Rgb };
        room.write("a.ktx", &ktx1(number, (4, 4), &pyramid(format, 4, 4, 1, 1), false, &[]));
        let said: Value = serde_json::from_str(&room.run(&["info", "--json", "a.ktx"]).out).expect("JSON");
        assert_eq!(said["srgb"], is_srgb);
    }
}

#[test]
fn census_counts_the_kinds_of_each_level() {
    let room = Room::new();
    let levels = pyramid(Format::Etc2Rgb, 40, 40, 3, 5);
    room.write("a.ktx", &ktx1(gl(Format::Etc2Rgb), (40, 40), &levels, false, &[]));
    let said: Value = serde_json::from_str(&room.run(&["info", "--census", "--json", "a.ktx"]).out).expect("JSON");
    for (k, data) in levels.iter().enumerate() {
        let counts = typed::census_etc2_rgb(data, Picture::new(40 >> k, 40 >> k)).expect("counts");
        let found = &said["levels"][k]["census"];
        assert_eq!(
            (&found["individual"], &found["planar"], &found["T"]),
            (&json!(counts.individual), &json!(counts.planar), &json!(counts.t))
        );
        assert_eq!((&found["differential"], &found["H"]), (&json!(counts.differential), &json!(counts.h)));
    }
    let lines = room.run(&["info", "--census", "a.ktx"]).out;
    assert!(lines.lines().count() == 4 && lines.contains("a.ktx: level 2 of 3, 10 x 10: "), "{lines}");
    room.write("a.pkm", &pkm(b"20", 4, (8, 8), &[RED, CLEAR, CLEAR, RED].concat()));
    let said: Value = serde_json::from_str(&room.run(&["info", "--census", "--json", "a.pkm"]).out).expect("JSON");
    let found = &said["levels"][0]["census"];
    assert_eq!((&found["opaque differential"], &found["clear differential"]), (&json!(2), &json!(2)));
}

#[test]
fn a_sheet_of_every_etc_and_eac_format() {
    let room = Room::new();
    for format in Format::ALL {
        let data = blocks(format, 30, 18, 4);
        room.write("a.ktx", &single(format, (30, 18), &data));
        let ran = room.run(&["sheet", "--force", "a.ktx", "a.sheet"]);
        let is_bc = format!("{format:?}").starts_with("Bc");
        if is_bc {
            ran.refuses(8, "a.ktx");
            continue;
        }
        ran.is_done();
        let sheet = room.read("a.sheet");
        let head = typed::sheet_head(&sheet).expect("a sheet");
        assert_eq!((head.format, head.picture), (format, Picture::new(30, 18)));
        assert!(sheet.ends_with(&data));
        let stream = room.run(&["sheet", "a.ktx", "-"]);
        assert!(stream.status == 0 && stream.bytes == sheet);
    }
    let mut data = blocks(Format::Etc1, 8, 8, 4);
    data[..4].copy_from_slice(&[0x04, 0, 0, 0x02]);
    room.write("new.pkm", &pkm(b"10", 0, (8, 8), &data));
    room.run(&["sheet", "new.pkm", "new.sheet"]).refuses(4, "new.pkm");
    assert!(!room.list().contains(&"new.sheet".to_owned()));
}

const DIGITS: [&str; 4] = ["--legend-digit", "index", "--picture-digit", "index"];

#[test]
fn degrees_of_every_point() {
    let room = Room::new();
    let file = example("glow.ktx");
    let bytes = fs::read(&file).expect("an example");
    let opened = typed::File::open(&bytes).expect("a file");
    let mut image = vec![0; 32 * 32];
    opened.level(0).expect("a level").read(&mut image).expect("pixels");
    for (word, legend) in [
        ("line:-10:0.5", Legend::Line { low: -10.0, step: 0.5 }),
        ("level:36.5", Legend::Level(36.5)),
        ("bend:1:0.25:-0.125", Legend::Bend { low: 1.0, step: 0.25, second: -0.125 }),
    ] {
        let (mut rows, mut expected) = ("x,y,measured\n".to_owned(), "predicted,measured,difference\n".to_owned());
        for (k, pixel) in image.iter().enumerate() {
            let measured = k as f32 * 0.37 - 100.0;
            rows += &format!("{},{},{measured}\n", k % 32, k / 32);
            expected += &match degrees(legend, 1, 1, *pixel, measured).expect("a reading") {
                Some(reading) => format!("{},{},{}\n", reading.predicted, reading.measured, reading.difference),
                None => format!(",{measured},\n"),
            };
        }
        let ran = room.run_with(&[&["degrees", &file, "--legend", word], &DIGITS[..]].concat(), rows.as_bytes());
        ran.is_done();
        assert!(ran.out == expected && ran.out.contains("\n,"), "{word}");
    }
    let one = room.run(&[&["degrees", &file, "16,16,-36.5", "--legend", "line:0:1"], &DIGITS[..]].concat());
    one.is_done();
    assert_eq!(one.out.trim().split(',').nth(1), Some("-36.5"), "{one:?}");
}

#[test]
fn degrees_name_the_row_that_is_refused() {
    let room = Room::new();
    let file = example("glow.ktx");
    let words = [&["degrees", &file, "--legend", "line:0:1"], &DIGITS[..]].concat();
    for (rows, number, named) in [
        ("16,16,1\n16,16,721\n", 15, "row 2 (16,16,721)"),
        ("16,16,nan\n", 15, "row 1"),
        ("16,16,1\n\n32,16,1\n", 39, "row 3 (32,16,1)"),
        ("16,16\n", 39, "x,y,measured"),
        ("16,x,1\n", 39, "'x'"),
        ("16,16,warm\n", 39, "'warm'"),
    ] {
        let ran = room.run_with(&words, rows.as_bytes());
        ran.refuses(number, "glow.ktx");
        assert!(ran.err.contains(named), "{ran:?}");
    }
    let legend = |legend: &str, picture: &str| {
        room.run(&[
            "degrees",
            &file,
            "1,1,1",
            "--legend",
            legend,
            "--legend-digit",
            "index",
            "--picture-digit",
            picture,
        ])
    };
    legend("line:0:9", "index").refuses(13, "glow.ktx");
    legend("line:0:1", "thumb").refuses(14, "glow.ktx");
    legend("line:0", "index").is_a_wrong_call("line:0");
    legend("line:0:x", "index").is_a_wrong_call("'x'");
    legend("line:0:1", "toe").is_a_wrong_call("toe");
    room.run_with(&[&["degrees", "-", "--legend", "line:0:1"], &DIGITS[..]].concat(), b"").is_a_wrong_call("words");
}

const BAKED: (usize, usize) = (30, 18);

/// A folder with a picture and what was baked from it.
fn baked() -> Room {
    let room = Room::new();
    let data = blocks(Format::Etc2Rgb, BAKED.0, BAKED.1, 3);
    room.write("source.ktx", &single(Format::Etc2Rgb, BAKED, &data));
    room.run(&["unpack", "source.ktx", "source.png"]).is_done();
    let ran = room.run(&["bake", "source.png", "baked.ktx"]);
    ran.is_done();
    assert!(ran.out.contains("40 blocks of ETC1, to baked.ktx"), "{ran:?}");
    room
}

#[test]
fn what_was_baked_can_be_read() {
    let room = baked();
    room.run(&["check", "baked.ktx"]).is_done();
    room.run(&["unpack", "baked.ktx", "baked.png"]).is_done();
    let ran = room.run(&["compare", "baked.ktx", "baked.png", "--tolerance", "0"]);
    ran.is_done();
    assert!(ran.out.contains("0 of 40 blocks are outside tolerance 0; the largest difference is 0"), "{ran:?}");
    for threads in ["1", "3"] {
        room.run(&["bake", "--force", "--threads", threads, "source.png", "again.ktx"]).is_done();
        assert_eq!(room.read("again.ktx"), room.read("baked.ktx"));
    }
}

#[test]
fn pixels_outside_the_picture_are_not_compared() {
    let room = Room::new();
    for size in [(1, 1), (2, 4), (4, 3), (30, 18)] {
        room.write("a.ktx", &single(Format::Etc1, size, &blocks(Format::Etc1, size.0, size.1, 5)));
        room.run(&["unpack", "--force", "a.ktx", "a.png"]).is_done();
        let ran = room.run(&["compare", "a.ktx", "a.png", "--tolerance", "0"]);
        assert!(ran.status == 0 && ran.out.contains("the largest difference is 0"), "{size:?}: {ran:?}");
    }
}

#[test]
fn compare_counts_the_blocks_outside() {
    let room = baked();
    room.run(&["unpack", "baked.ktx", "baked.png"]).is_done();
    let (baked, source) =
        (common::seen(&room.path("baked.png")).samples, common::seen(&room.path("source.png")).samples);
    let far = |k: usize| baked[k].abs_diff(source[k]);
    let largest = (0..source.len()).map(far).max().expect("samples");
    for tolerance in [0, largest - 1, largest, 255] {
        let is_outside = |block: &usize| {
            let inside = |k: &usize| k / 3 % BAKED.0 / 4 + k / 3 / BAKED.0 / 4 * 8 == *block;
            (0..source.len()).filter(inside).any(|k| far(k) > tolerance)
        };
        let outside: Vec<usize> = (0..40).filter(is_outside).collect();
        let ran = room.run(&["compare", "baked.ktx", "source.png", "--tolerance", &tolerance.to_string()]);
        assert_eq!(ran.status, i32::from(!outside.is_empty()), "{ran:?}");
        let count = format!("{} of 40 blocks are outside tolerance {tolerance}", outside.len());
        assert!(ran.out.contains(&count), "{count}: {ran:?}");
        assert!(ran.out.contains(&format!("the largest difference is {largest}")), "{largest}: {ran:?}");
        let first = outside.first().map(|block| format!("the first of them block {block}, "));
        assert!(first.is_none_or(|first| ran.out.contains(&first)), "{ran:?}");
    }
}

#[test]
fn bake_comes_near_and_tries_both_ways() {
    let room = Room::new();
    // the left and right halves of the first block differ, and the upper and lower halves of the second
    let across: Vec<[u8; 3]> =
        (0..16).map(|k| if k % 4 < 2 { [0x11, 0x22, 0x33] } else { [0xee, 0xdd, 0xcc] }).collect();
    let down: Vec<[u8; 3]> = (0..16).map(|k| if k / 4 < 2 { [0x11, 0x22, 0x33] } else { [0xee, 0xdd, 0xcc] }).collect();
    let rows = (0..4).flat_map(|y| [&across[4 * y..4 * y + 4], &down[4 * y..4 * y + 4]].concat());
    let bytes: Vec<u8> = rows.flatten().collect();
    let mut png = Vec::new();
    let mut encoder = png::Encoder::new(&mut png, 8, 4);
    encoder.set_color(png::ColorType::Rgb);
    encoder.write_header().and_then(|mut writer| writer.write_image_data(&bytes)).expect("a PNG");
    room.write("in.png", &png);
    room.run(&["bake", "in.png", "out.ktx"]).is_done();
    let file = room.read("out.ktx");
    assert_eq!((file[68 + 3] & 1, file[68 + 8 + 3] & 1), (0, 1), "the way in which each block is cut");
    room.run(&["compare", "out.ktx", "in.png", "--tolerance", "2"]).is_done();
}

#[test]
fn compare_and_bake_refuse_what_does_not_fit() {
    let room = Room::new();
    room.run(&["unpack", &example("glow.ktx"), "glow.png"]).is_done();
    room.run(&["unpack", &example("old.pkm"), "old.png"]).is_done();
    room.run(&["compare", &example("glow.ktx"), "glow.png", "--tolerance", "1"]).refuses(40, "glow.ktx");
    room.run(&["compare", &example("old.pkm"), "glow.png", "--tolerance", "1"]).refuses(42, "old.pkm");
    room.run(&["compare", &example("old.pkm"), &example("old.pkm"), "--tolerance", "1"]).refuses(42, "old.pkm");
    room.run(&["compare", &example("old.pkm"), "none.png", "--tolerance", "1"]).refuses(30, "none.png");
    room.run(&["bake", "glow.png", "x.ktx"]).refuses(42, "glow.png");
    room.run(&["bake", &example("old.pkm"), "x.ktx"]).refuses(42, "old.pkm");
    room.run(&["bake", "old.png", "glow.png"]).refuses(33, "glow.png");
    room.run(&["bake", "--force", "old.png", "old.png"]).refuses(34, "old.png");
    let newer = [blocks(Format::Etc1, 4, 4, 1), vec![0x04, 0, 0, 0x02, 0, 0, 0, 0]].concat();
    room.write("newer.pkm", &pkm(b"10", 0, (8, 4), &newer));
    room.run(&["unpack", "--wrap", "newer.pkm", "newer.png"]).is_done();
    let ran = room.run(&["compare", "newer.pkm", "newer.png", "--tolerance", "255"]);
    assert!(ran.status == 1 && ran.out.contains("1 of 2 blocks") && ran.out.contains("newer kind"), "{ran:?}");
    assert_eq!(room.list(), ["glow.png", "newer.pkm", "newer.png", "old.png"]);
}

#[test]
fn pages_are_made_from_the_help() {
    let room = Room::new();
    let page = room.run(&["manual"]);
    page.is_done();
    for command in ["unpack", "check", "info", "sheet", "degrees", "compare", "bake"] {
        let help = room.run(&[command, "--help"]);
        help.is_done();
        let words: Vec<&str> =
            help.out.split_whitespace().filter(|word| word.starts_with("--") && word.len() > 2).collect();
        for word in words {
            let word = word.trim_end_matches([',', ':', '.', ';']);
            assert!(page.out.contains(&word.replace('-', "\\-")), "{command} {word}");
        }
    }
    if room.shell("command -v man").status == 0 {
        room.write("yalivucu.1", page.out.as_bytes());
        let shown = room.shell("MANWIDTH=100 man --warnings -l ./yalivucu.1 2>&1 | cat");
        assert!(shown.out.contains("--force") && !shown.out.contains("warning"), "{shown:?}");
    }
    for shell in ["bash", "zsh", "fish"] {
        let ran = room.run(&["completions", shell]);
        ran.is_done();
        assert!(ran.out.contains("upright") && ran.out.contains("degrees"), "{shell}");
    }
    room.write("complete", room.run(&["completions", "bash"]).out.as_bytes());
    assert_eq!(room.shell("bash -n complete").status, 0);
    room.run(&["--help"]).is_done();
    assert!(room.run(&["--version"]).out.starts_with("yalivucu 0."));
}
