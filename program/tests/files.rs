//! What must not happen to files: names, links, devices, signals, a full disk, runs at once.
mod common;
use common::{blocks, example, gl, ktx1, large, pkm, single, Ran, Room, PROGRAM};
use std::fs;
use std::io::{Read, Write};
use std::os::unix::fs::{symlink, PermissionsExt};
use std::os::unix::process::ExitStatusExt;
use std::path::Path;
use std::process::{Child, Command, Stdio};
use std::thread::sleep;
use std::time::{Duration, Instant};
use yalivucu::typed::Format;

/// A folder with a file in it, and the PNG of that file.
fn room() -> (Room, Vec<u8>) {
    let room = Room::new();
    fs::copy(example("kinds.ktx"), room.path("in.ktx")).expect("a copy");
    room.run(&["unpack", "in.ktx", "-o", "whole.png"]).is_done();
    let png = room.read("whole.png");
    fs::remove_file(room.path("whole.png")).expect("a file");
    (room, png)
}

#[test]
fn a_name_that_is_taken() {
    let (room, png) = room();
    room.write("out.png", b"somebody's");
    let refused = room.run(&["unpack", "in.ktx", "out.png"]);
    refused.refuses(33, "out.png");
    assert!(refused.err.contains("--force") && room.read("out.png") == b"somebody's");
    symlink("nowhere", room.path("dangling.png")).expect("a link");
    room.run(&["unpack", "in.ktx", "dangling.png"]).refuses(33, "dangling.png");
    room.run(&["unpack", "--force", "in.ktx", "out.png"]).is_done();
    assert_eq!(room.read("out.png"), png);
    room.write("target", b"somebody's");
    symlink("target", room.path("led.png")).expect("a link");
    room.run(&["unpack", "--force", "in.ktx", "led.png"]).is_done();
    assert_eq!((room.read("target"), room.read("led.png")), (b"somebody's".to_vec(), png));
    fs::copy(room.path("in.ktx"), room.path("other.ktx")).expect("a copy");
    room.run(&["unpack", "in.ktx", "-o", "other.ktx"]).refuses(33, "other.ktx");
    assert_eq!(room.list(), ["dangling.png", "in.ktx", "led.png", "other.ktx", "out.png", "target"]);
}

#[test]
fn the_file_itself_is_never_written() {
    let (room, _) = room();
    symlink("in.ktx", room.path("soft")).expect("a link");
    fs::hard_link(room.path("in.ktx"), room.path("hard")).expect("a link");
    let file = room.read("in.ktx");
    let around = format!("../{}/in.ktx", room.here().file_name().expect("a name").to_string_lossy());
    for out in ["in.ktx", "./in.ktx", "soft", "hard", &around] {
        for force in [&[][..], &["--force"]] {
            room.run(&[&["unpack", "in.ktx", "-o", out], force].concat()).refuses(34, "in.ktx");
            room.run(&[&["sheet", "in.ktx", out], force].concat()).refuses(34, "in.ktx");
        }
    }
    let ran = room.shell("$Y unpack --force - -o in.ktx <in.ktx");
    assert!(ran.status == 1 && ran.err.contains("Refusal 34"), "{ran:?}");
    assert_eq!(room.read("in.ktx"), file);
}

#[test]
fn folders_devices_and_pipes_are_never_written() {
    let (room, _) = room();
    fs::create_dir(room.path("folder")).expect("a folder");
    let made = room.shell("mkfifo pipe && mknod device c 1 3");
    let mut names = vec!["folder", "folder/", "pipe", "new/", "folder/.", ".."];
    if made.status == 0 {
        names.push("device");
    }
    let before = room.list();
    for out in names {
        for force in [&[][..], &["--force"]] {
            room.run(&[&["unpack", "in.ktx", "-o", out], force].concat()).refuses(35, "in.ktx");
        }
    }
    assert_eq!(room.list(), before);
    assert_eq!(fs::read_dir(room.path("folder")).expect("it").count(), 0);
    for out in ["/dev/stdout", "/dev/fd/1", "/proc/self/fd/1", "/dev/new.png", "/sys/x.png"] {
        let ran = room.shell(&format!("$Y unpack --force in.ktx -o {out} >out"));
        assert!(ran.status == 1 && ran.err.contains("Refusal 35"), "{out}: {ran:?}");
        assert_eq!(room.read("out"), b"");
    }
    assert!(!Path::new("/dev/new.png").exists());
    room.run(&["unpack", "in.ktx", "no/folder.png"]).refuses(31, "no/folder.png");
    room.run(&["unpack", "--into", "no", "in.ktx"]).refuses(31, "in.ktx");
}

#[test]
fn names_that_look_like_options() {
    let (room, png) = room();
    room.run(&["unpack", "in.ktx", "--png"]).is_a_wrong_call("--png");
    room.run(&["unpack", "--", "in.ktx", "--x.png"]).is_done();
    room.run(&["unpack", "in.ktx", "-o-x.png"]).is_done();
    assert_eq!((room.read("--x.png"), room.read("-x.png")), (png.clone(), png));
}

#[test]
fn the_mode_of_a_new_file_is_the_umasks() {
    let (room, _) = room();
    for mask in ["022", "077", "002"] {
        room.shell(&format!("umask {mask}; $Y unpack in.ktx {mask}.png")).is_done();
        let mode = fs::metadata(room.path(format!("{mask}.png"))).expect("it").permissions().mode();
        assert_eq!(mode & 0o777, 0o666 & !u32::from_str_radix(mask, 8).expect("a number"), "umask {mask}");
    }
}

#[test]
fn several_files() {
    let (room, png) = room();
    fs::create_dir(room.path("into")).expect("a folder");
    fs::create_dir(room.path("twin")).expect("a folder");
    room.write("bad.ktx", &room.read("in.ktx")[..63]);
    fs::copy(example("glow.ktx"), room.path("glow.ktx")).expect("a copy");
    let ran = room.run(&["unpack", "--into", "into", "glow.ktx", "bad.ktx", "in.ktx"]);
    ran.refuses(20, "bad.ktx");
    assert_eq!(ran.out.lines().count(), 2);
    assert_eq!(fs::read(room.path("into/in.ktx.png")).ok(), Some(png.clone()));
    let ran = room.run(&["unpack", "--into", "into", "glow.ktx", "in.ktx", "bad.ktx"]);
    assert_eq!(ran.err.matches("Refusal 33").count(), 2, "{ran:?}");
    fs::copy(room.path("glow.ktx"), room.path("twin/in.ktx")).expect("a copy");
    for force in [&[][..], &["--force"]] {
        room.shell("rm -f into/*").is_done();
        room.run(&[&["unpack", "--into", "into", "in.ktx", "twin/in.ktx"], force].concat()).refuses(33, "in.ktx.png");
        assert_eq!(fs::read(room.path("into/in.ktx.png")).ok(), Some(png.clone()), "the first of one name stays");
    }
    fs::copy(room.path("glow.ktx"), room.path("twin/in.ktx.png")).expect("a copy");
    let glow = room.read("glow.ktx");
    room.run(&["unpack", "--force", "--into", "twin", "in.ktx", "twin/in.ktx.png"]).refuses(34, "in.ktx.png");
    assert_eq!(fs::read(room.path("twin/in.ktx.png")).ok(), Some(glow), "another FILE is kept");
    room.run(&["unpack", "--into", "into", "-"]).is_a_wrong_call("-");
    room.run(&["unpack", "in.ktx", "glow.ktx", "-o", "x.png"]).is_a_wrong_call("--into");
    room.run(&["unpack", "in.ktx", "glow.ktx"]).is_done();
    assert_eq!(room.read("in.ktx.png"), png);
    room.run(&["unpack", "--force", "in.ktx", "png"]).refuses(30, "png");
}

#[test]
fn eight_hundred_files_print_a_line_each_in_order() {
    let room = Room::new();
    fs::create_dir(room.path("into")).expect("a folder");
    let names: Vec<String> = (0..800).map(|k| format!("{k:03}.ktx")).collect();
    for (k, name) in names.iter().enumerate() {
        let data = blocks(Format::Etc2Rgb, 8, 8, k as u64);
        let file = single(Format::Etc2Rgb, (8, 8), &data);
        room.write(name, if k == 400 { &file[..90] } else { &file });
    }
    let words: Vec<&str> = ["unpack", "--into", "into"].into_iter().chain(names.iter().map(String::as_str)).collect();
    let ran = room.run(&words);
    ran.refuses(37, "400.ktx");
    let lines: Vec<&str> = ran.out.lines().collect();
    assert_eq!((lines.len(), ran.err.lines().count()), (799, 1));
    let expected = names.iter().filter(|name| *name != "400.ktx");
    assert!(lines
        .iter()
        .zip(expected)
        .all(|(line, name)| line.starts_with(&format!("{name}: ETC2 RGB, 8 x 8, to into/{name}.png"))));
    let info: Vec<&str> = ["info"].into_iter().chain(names.iter().map(String::as_str)).collect();
    assert_eq!(room.run(&info).out.lines().count(), 799);
}

#[test]
fn no_name_reaches_the_terminal() {
    let room = Room::new();
    let name = "a\x1b[2J\nb.ktx";
    fs::copy(example("kinds.ktx"), room.path(name)).expect("a copy");
    for words in [
        &["unpack", name, "out.png"][..],
        &["info", name],
        &["check", name],
        &["unpack", "no\x07.ktx"],
        &["unpack", "--no\x1b[2J", "x"],
    ] {
        let ran = room.run(words);
        let is_text = |text: &str| text.chars().all(|c| c == '\n' || !c.is_control());
        assert!(is_text(&ran.out) && is_text(&ran.err), "{ran:?}");
        assert!(ran.out.contains("a\\u{1b}[2J\\u{a}b.ktx") || ran.status != 0, "{ran:?}");
    }
    let said: serde_json::Value = serde_json::from_str(&room.run(&["info", "--json", name]).out).expect("JSON");
    assert_eq!(said["file"], name);
}

/// A run that hears every signal, whatever the one who runs the tests ignores, and leaves no core.
fn started(room: &Room, words: &[&str], input: Stdio) -> Child {
    let mut command = Command::new("sh");
    command.args(["-c", "ulimit -c 0; exec env --default-signal \"$@\"", "sh", PROGRAM]).args(words);
    let child = command.current_dir(room.here()).stdin(input).stdout(Stdio::piped()).stderr(Stdio::piped()).spawn();
    child.expect("the program runs")
}

/// Waits until a run has begun to write.
#[track_caller]
fn has_begun(room: &Room, child: &mut Child) {
    let begin = Instant::now();
    while !room.list().iter().any(|name| name.starts_with(".yalivucu-")) {
        assert!(child.try_wait().expect("it").is_none(), "the run is over before it could be seen");
        assert!(begin.elapsed() < Duration::from_secs(60), "the run has not begun");
        sleep(Duration::from_micros(200));
    }
}

#[test]
fn two_runs_with_one_name() {
    let room = Room::new();
    room.write("big.ktx", &large(1024));
    let both = |words: &[&str]| -> Vec<i32> {
        let runs: Vec<Child> = (0..2).map(|_| started(&room, words, Stdio::null())).collect();
        let mut ends: Vec<i32> =
            runs.into_iter().map(|run| Ran::of(run.wait_with_output().expect("it ends")).status).collect();
        ends.sort_unstable();
        ends
    };
    assert_eq!(both(&["unpack", "big.ktx", "out.png"]), [0, 1]);
    let whole = room.read("out.png");
    assert_eq!(both(&["unpack", "--force", "big.ktx", "out.png"]), [0, 0]);
    assert!(room.read("out.png") == whole);
    assert_eq!(room.list(), ["big.ktx", "out.png"]);
}

#[test]
fn nothing_is_left_after_a_signal() {
    for (number, name) in [(2, "INT"), (15, "TERM"), (1, "HUP"), (3, "QUIT")] {
        let room = Room::new();
        room.write("big.ktx", &large(8192));
        room.write("out.png", b"somebody's");
        let mut run = started(&room, &["unpack", "--force", "--threads", "2", "big.ktx", "out.png"], Stdio::null());
        has_begun(&room, &mut run);
        let kill = Command::new("kill").args(["-s", name, &run.id().to_string()]).status();
        assert!(kill.is_ok_and(|status| status.success()));
        assert_eq!(run.wait().expect("it ends").signal(), Some(number), "SIG{name}");
        assert_eq!(room.list(), ["big.ktx", "out.png"], "SIG{name}");
        assert_eq!(room.read("out.png"), b"somebody's", "SIG{name}");
        let mut run = started(&room, &["unpack", "-", "-o", "new.png"], Stdio::piped());
        let _held = run.stdin.take();
        sleep(Duration::from_millis(100));
        let kill = Command::new("kill").args(["-s", name, &run.id().to_string()]).status();
        assert!(kill.is_ok_and(|status| status.success()));
        assert_eq!(run.wait().expect("it ends").signal(), Some(number), "SIG{name} while it waits for its input");
        assert_eq!(room.list(), ["big.ktx", "out.png"], "SIG{name}");
    }
}

#[test]
fn a_signal_that_was_ignored_stays_ignored() {
    let room = Room::new();
    room.write("big.ktx", &large(4096));
    let line = "trap '' HUP; $Y unpack big.ktx out.png >/dev/null & \
                while ! ls -A | grep -q -e yalivucu- -e out.png; do :; done; kill -HUP $!; wait $!";
    assert_eq!(room.shell(line).status, 0);
    assert_eq!(room.list(), ["big.ktx", "out.png"]);
}

#[test]
fn a_limit_on_the_size_of_files() {
    let room = Room::new();
    room.write("big.ktx", &large(1024));
    room.write("out.png", b"somebody's");
    let ran = room.shell("ulimit -f 8; $Y unpack --force big.ktx out.png");
    ran.refuses(31, "out.png");
    assert!(ran.err.contains("too large"), "{ran:?}");
    assert_eq!(
        (room.list(), room.read("out.png")),
        (vec!["big.ktx".to_owned(), "out.png".to_owned()], b"somebody's".to_vec())
    );
}

/// A line of shell where a file system of our own may be mounted, which nobody else sees.
fn alone(room: &Room, line: &str) -> Ran {
    let ran = room.shell(&format!("unshare -rm sh -c '{line}'"));
    if ran.err.contains("mount") || ran.err.contains("unshare") {
        return room.shell(&format!("unshare -m sh -c '{line}'"));
    }
    ran
}

#[test]
fn a_full_disk() {
    let room = Room::new();
    fs::create_dir(room.path("disk")).expect("a folder");
    room.write("big.ktx", &large(2048));
    let mount = "mount -t tmpfs -o size=64k none disk && cd disk && echo mine >out.png &&";
    if alone(&room, &format!("{mount} true")).status != 0 {
        eprintln!("no file system may be mounted here: a full disk is not tried");
        return;
    }
    let ran = alone(&room, &format!("{mount} $Y unpack --force ../big.ktx out.png; echo $? $(ls -A) $(cat out.png)"));
    assert_eq!(ran.out.trim(), "1 out.png mine", "{ran:?}");
    assert!(ran.err.contains("Refusal 31") && ran.err.contains("No space left"), "{ran:?}");
}

const SAYING: [&[&str]; 12] = [
    &["unpack", "in.ktx", "new.png"],
    &["unpack", "--force", "in.ktx", "out.png"],
    &["unpack", "in.ktx", "-"],
    &["info", "in.ktx"],
    &["check", "in.ktx"],
    &["--help"],
    &["--version"],
    &["manual"],
    &["completions", "bash"],
    &["sheet", "in.ktx", "new.sheet"],
    &["sheet", "in.ktx", "-"],
    &["info", "--json", "in.ktx"],
];

/// A pipe that nobody reads. A program that another test is just starting holds a copy of the reading end for a moment, so this writes
/// until the pipe is broken.
fn closed() -> Stdio {
    let mut reader = Command::new("true").stdin(Stdio::piped()).spawn().expect("true runs");
    let mut pipe = reader.stdin.take().expect("a pipe");
    reader.wait().expect("it ends");
    while pipe.write(b"?").is_ok() {
        sleep(Duration::from_millis(1));
    }
    Stdio::from(pipe)
}

fn full() -> Stdio {
    Stdio::from(fs::File::options().write(true).open("/dev/full").expect("the device"))
}

#[test]
fn a_closed_or_full_standard_output_leaves_everything_as_it_was() {
    let (room, _) = room();
    room.write("out.png", b"somebody's");
    for words in SAYING {
        for (output, why) in [(full(), "No space left"), (closed(), "Broken pipe")] {
            let run = room.command(words).stdout(output).stderr(Stdio::piped()).spawn().expect("it runs");
            let ran = Ran::of(run.wait_with_output().expect("it ends"));
            assert!(ran.status == 1 && ran.err.contains("Refusal 36") && ran.err.contains(why), "{words:?}: {ran:?}");
            assert_eq!(room.list(), ["in.ktx", "out.png"], "{words:?}");
            assert_eq!(room.read("out.png"), b"somebody's", "{words:?}");
        }
    }
}

#[test]
fn nobody_reads_the_refusal() {
    let (room, _) = room();
    room.write("bad.ktx", &room.read("in.ktx")[..63]);
    let ran = room.shell(
        "{ $Y unpack --into . bad.ktx in.ktx; echo $? >new; mv new status; } 2>&1 >/dev/null | true; \
         for k in $(seq 600); do [ -e status ] || sleep 0.1; done; cat status",
    );
    assert_eq!(ran.out.trim(), "1", "{ran:?}");
    assert_eq!(room.list(), ["bad.ktx", "in.ktx", "in.ktx.png", "status"]);
}

/// Links cannot be made, as on file systems that have none: a library that stands before the system's says so.
#[test]
fn a_file_system_without_links() {
    let (room, png) = room();
    room.write(
        "no.c",
        b"#include <errno.h>\nint linkat(int a, const char *b, int c, const char *d, int e)\n\
          { (void)a; (void)b; (void)c; (void)d; (void)e; errno = EPERM; return -1; }\n",
    );
    room.shell("cc -shared -fPIC no.c -o no.so && rm no.c").is_done();
    let without = "LD_PRELOAD=$PWD/no.so $Y unpack";
    room.shell(&format!("{without} in.ktx out.png")).is_done();
    assert_eq!(room.read("out.png"), png);
    room.write("taken.png", b"somebody's");
    room.shell(&format!("{without} in.ktx taken.png")).refuses(33, "taken.png");
    room.shell(&format!("{without} --force in.ktx taken.png")).is_done();
    assert_eq!(room.read("taken.png"), png);
    let ran = room.shell(&format!("{without} in.ktx new.png >/dev/full"));
    assert_eq!(ran.status, 1);
    assert_eq!(room.list(), ["in.ktx", "no.so", "out.png", "taken.png"]);
}

#[test]
fn the_folder_may_move_meanwhile() {
    let room = Room::new();
    let png = {
        room.run(&["unpack", &example("glow.ktx"), "glow.png"]).is_done();
        room.read("glow.png")
    };
    fs::remove_file(room.path("glow.png")).expect("a file");
    fs::create_dir(room.path("here")).expect("a folder");
    room.write("big.ktx", &large(4096));
    let mut run = started(&room, &["unpack", "big.ktx", "here/out.png"], Stdio::null());
    let begin = Instant::now();
    while fs::read_dir(room.path("here")).expect("it").count() == 0 && begin.elapsed() < Duration::from_secs(30) {
        sleep(Duration::from_micros(200));
    }
    fs::rename(room.path("here"), room.path("there")).expect("it moves");
    assert!(run.wait().expect("it ends").success());
    let names: Vec<_> =
        fs::read_dir(room.path("there")).expect("it").map(|entry| entry.expect("one").file_name()).collect();
    assert_eq!(names, ["out.png"]);
    let mut run = started(&room, &["unpack", "-", "-o", "new.png"], Stdio::piped());
    let glow = fs::read(example("glow.ktx")).expect("an example");
    run.stdin.take().expect("it").write_all(&glow).expect("it is written");
    assert!(run.wait().expect("it ends").success());
    assert_eq!(room.read("new.png"), png);
}

#[test]
fn what_is_no_ordinary_file_is_not_read() {
    let room = Room::new();
    room.shell("mkfifo pipe; mkdir folder").is_done();
    for (file, why) in [
        ("folder", "folder"),
        ("pipe", "no ordinary file"),
        ("/dev/zero", "no ordinary file"),
        ("none", "No such file"),
        ("", "No such file"),
    ] {
        for words in [&["unpack", file, "-o", "x.png"][..], &["info", file], &["check", file], &["sheet", file, "x"]] {
            let ran = room.run(words);
            ran.refuses(30, file);
            assert!(ran.err.contains(why), "{file}: {ran:?}");
        }
    }
    let ran = room.shell("$Y unpack - -o x.png <&-");
    assert_eq!(ran.status, 1, "a closed standard input: {ran:?}");
    let tty = room.shell("script -qec \"$Y info -\" /dev/null; script -qec \"$Y unpack $GLOW -\" /dev/null");
    assert!(tty.out.contains("terminal"), "{tty:?}");
    assert_eq!(room.list(), ["folder", "pipe"]);
}

#[test]
fn no_picture_goes_to_a_terminal() {
    let (room, _) = room();
    let ran = room.shell("script -qec \"$Y unpack in.ktx -; $Y sheet in.ktx -\" /dev/null </dev/null");
    assert_eq!(ran.out.matches("Refusal 36").count(), 2, "{ran:?}");
}

#[test]
fn progress_is_for_terminals() {
    let room = Room::new();
    room.write("big.ktx", &large(4096));
    let quiet = room.run(&["unpack", "big.ktx", "a.png"]);
    quiet.is_done();
    let seen = room.shell("TERM=xterm script -qec \"$Y unpack big.ktx b.png\" /dev/null </dev/null");
    assert!(seen.out.contains("strips"), "{seen:?}");
}

#[test]
fn streams() {
    let room = Room::new();
    for name in ["old.pkm", "kinds.ktx", "glow.ktx"] {
        let data = fs::read(example(name)).expect("an example");
        room.run(&["unpack", "--force", &example(name), "file.png"]).is_done();
        let png = room.read("file.png");
        room.run_with(&["unpack", "--force", "-", "out.png"], &data).is_done();
        assert_eq!(room.read("out.png"), png);
        let ran = room.run_with(&["unpack", "-", "-"], &data);
        assert!((ran.status, &ran.bytes) == (0, &png), "{name}");
        room.run_with(&["info", "-"], &data).is_done();
        let ran = room.run_with(&["unpack", "-", "-"], &data[..data.len() - 1]);
        assert!(ran.status == 1 && ran.bytes.is_empty() && ran.err.contains("Refusal 37"), "{ran:?}");
    }
    let endless = room.shell("yes | timeout 60 $Y unpack - -");
    assert!(endless.status == 1 && endless.err.contains("Refusal 21") && endless.bytes.is_empty(), "{endless:?}");
    fs::copy(example("glow.ktx"), room.path("glow.ktx")).expect("a copy");
    room.run(&["unpack", "--force", "glow.ktx", "file.png"]).is_done();
    let ran = room.shell("{ cat glow.ktx; yes; } | timeout 60 $Y unpack - -");
    assert!(ran.bytes == room.read("file.png"), "a stream without end behind a file");
    let whole = pkm(b"10", 0, (364, 360), &vec![0; 91 * 90 * 8]);
    for (data, status) in [(&whole[..whole.len() - 1], 1), (&whole[..], 0), (&[&whole[..], b"\0"].concat()[..], 1)] {
        assert_eq!(room.run_with(&["check", "-"], data).status, status, "{} bytes", data.len());
    }
    for size in [65535usize, 65536, 65537, 131072, 131073] {
        room.write("bare", &vec![0; size]);
        let words = ["unpack", "--force", "--raw", "etc1", "128x256"];
        let file = room.run(&[&words[..], &["bare", "-o", "a.png"]].concat());
        let stream = room.run_with(&[&words[..], &["-", "-o", "a.png"]].concat(), &vec![0; size]);
        assert_eq!(file.status, stream.status, "{size} bytes");
    }
    let wide = ktx1(gl(Format::Etc2Rgba8), (65_537, 4), &[vec![0; 16 * 16_385]], false, &[]);
    let ran = room.run_with(&["unpack", "-", "-"], &wide);
    assert!(ran.status == 1 && ran.err.contains("Refusal 1:") && ran.err.lines().count() == 1, "{ran:?}");
}

#[test]
fn memory_stays_within_the_file_and_a_few_rows() {
    let room = Room::new();
    room.write("big.ktx", &large(8192)); // 64 MB of blocks, 256 MB of pixels
    let ran = room.shell("ulimit -v 400000; $Y unpack --threads 2 big.ktx big.png");
    ran.is_done();
    let mut child = Command::new(PROGRAM).args(["--version"]).stdout(Stdio::piped()).spawn().expect("it runs");
    let mut said = String::new();
    child.stdout.take().expect("it").read_to_string(&mut said).expect("text");
    assert!(child.wait().expect("it ends").success() && said.starts_with("yalivucu "), "{said}");
}
