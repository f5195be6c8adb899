//! Files that are wrong in a few bytes: the program ends with 0 or 1, says what the library says, and leaves nothing behind.
mod common;
use common::{blocks, dds, entry, gl, ktx1, ktx2, pkm, pyramid, Dice, Room};
use std::fs;
use yalivucu::typed::{File, Format};

fn seeds() -> Vec<Vec<u8>> {
    let levels = |format| pyramid(format, 20, 12, 3, 4);
    let mut files: Vec<Vec<u8>> = ["glow.ktx", "kinds.ktx", "old.pkm"]
        .iter()
        .map(|name| fs::read(common::example(name)).expect("an example"))
        .collect();
    files.push(ktx1(
        gl(Format::Etc2Rgba1),
        (20, 12),
        &levels(Format::Etc2Rgba1),
        true,
        &entry(true, b"KTXorientation\0S=r\0"),
    ));
    files.push(ktx2(151, (20, 12), &levels(Format::Etc2Rgba8)));
    files.push(dds(b"DXT5", 0, (20, 12), &levels(Format::Bc3)));
    files.push(dds(b"DX10", 98, (20, 12), &levels(Format::Bc7)));
    files.push(pkm(b"20", 8, (20, 12), &blocks(Format::EacRgSigned, 20, 12, 1)));
    files
}

fn mutated(dice: &mut Dice, files: &[Vec<u8>]) -> Vec<u8> {
    let mut file = files[dice.below(files.len())].clone();
    for _ in 0..dice.below(4) {
        let reach = [16, 68, 150, file.len()][dice.below(4)].min(file.len());
        let at = dice.below(reach);
        file[at] = [0, 1, 2, 255, dice.next() as u8, file[at] ^ 1 << dice.below(8)][dice.below(6)];
    }
    if dice.below(5) == 0 {
        file.truncate(dice.below(file.len()));
    }
    if dice.below(5) == 0 {
        file.extend(vec![0; dice.below(40)]);
    }
    file
}

#[test]
fn mutated_files_are_shown_or_refused() {
    let room = Room::new();
    let (mut dice, files) = (Dice(6), seeds());
    let mut accepted = 0;
    for turn in 0..400 {
        let file = mutated(&mut dice, &files);
        room.write("file", &file);
        let opened = File::open(&file).map(|_| ());
        let info = room.run(&["info", "--json", "--census", "file"]);
        let said: serde_json::Value =
            serde_json::from_str(&info.out).unwrap_or_else(|why| panic!("turn {turn}: {why}: {info:?}"));
        assert_eq!(info.status, i32::from(opened.is_err()), "turn {turn}: {info:?}");
        if let Err(refusal) = opened {
            assert_eq!(said["refused"]["number"], refusal.number(), "turn {turn}");
            room.run(&["unpack", "file", "out.png"]).refuses(refusal.number(), "file");
            assert_eq!(room.list(), ["file"], "turn {turn}");
            continue;
        }
        accepted += 1;
        let ran = room.run(&["unpack", "--wrap", "--more", "--levels", "-o", "out.png", "file"]);
        ran.is_done();
        let check = room.run(&["check", "--json", "file"]);
        assert!((0..2).contains(&check.status) && check.err.is_empty(), "turn {turn}: {check:?}");
        for name in room.list().iter().filter(|name| *name != "file") {
            assert!(name.starts_with("out.") && name.ends_with(".png"), "turn {turn}: {name} is left");
            fs::remove_file(room.path(name)).expect("a file");
        }
    }
    assert!(accepted > 50, "{accepted} of 400 files are accepted");
}
