//! How ./yalivucu builds the program and how bindings/install installs it.
//!
//! A copy of the scripts beside one small crate stands for the checkout. A script stands for bindings/archive, and one for cargo, which
//! hands out the program that is tested here. So what is tried is who builds when, and what is said.
mod common;
use common::{example, top, Ran, Room, PROGRAM};
use std::fs;
use std::io::{BufRead, BufReader};
use std::os::unix::fs::{symlink, PermissionsExt};
use std::os::unix::process::{CommandExt, ExitStatusExt};
use std::path::PathBuf;
use std::process::{Child, Command, Stdio};
use std::thread::sleep;
use std::time::Duration;

const ARCHIVE: &str = r#"#!/bin/sh
echo archive >>"$KIT/calls"
sleep "${SLOW:-0}"
[ -z "${WRONG-}" ] || { echo "numbers: error: $WRONG" >&2; exit 1; }
while [ $# -gt 1 ]; do shift; done
echo library >"$1"
"#;
const CARGO: &str = r#"#!/bin/sh
echo "cargo $1" >>"$KIT/calls"
case $1 in
build)
    [ "$(cat "$YALIVUCU_ARCHIVE")" = library ] || exit 1
    mkdir -p "$CARGO_TARGET_DIR/release" && cp "$PROGRAM" "$CARGO_TARGET_DIR/release/yalivucu" ;;
fetch) [ -n "${PUBLIC-}" ] || { echo "no registry here" >&2; exit 1; } ;;
esac
"#;
const DPKG: &str = r#"#!/bin/sh
case $1 in
-s) [ -e "$KIT/packages" ] ;;
-L) [ ! -e "$KIT/packages" ] || echo "$KIT/registry" ;;
esac
"#;
const APT: &str = "#!/bin/sh\necho \"apt-get $*\" >>\"$KIT/calls\"\n[ \"$1\" != install ] || : >\"$KIT/packages\"\n";

/// A checkout that was never built, and what it is built with.
struct Checkout {
    room: Room,
    top: PathBuf,
    kit: PathBuf,
}

impl Checkout {
    fn new() -> Checkout {
        let room = Room::new();
        let (own, kit) = (room.path("checkout"), room.path("kit"));
        for folder in ["crates/numbers/src", "bindings/rust/src", "program/src", "program/tests", "include"] {
            fs::create_dir_all(own.join(folder)).expect("a folder");
        }
        fs::create_dir_all(&kit).expect("a folder");
        for name in
            ["yalivucu", "program/build", "program/cargo", "program/sources", "bindings/install", "include/yalivucu.h"]
        {
            fs::copy(top().join(name), own.join(name)).expect("a copy");
        }
        for name in [
            "crates.txt",
            "crates/numbers/src/lib.rt",
            "bindings/native.sh",
            "bindings/rust/src/lib.rs",
            "bindings/rust/build.rs",
        ] {
            fs::write(own.join(name), "nothing\n").expect("a file");
        }
        fs::write(own.join("bindings/rust/Cargo.toml"), "version = \"0.2.0\"\n").expect("a file");
        for name in ["program/Cargo.toml", "program/src/main.rs", "program/rustfmt.toml"] {
            fs::write(own.join(name), "nothing\n").expect("a file");
        }
        fs::write(own.join("bindings/archive"), ARCHIVE).expect("a file");
        for (name, text) in [("rt", "#!/bin/sh\n"), ("cargo", CARGO), ("dpkg", DPKG), ("apt-get", APT)] {
            fs::write(kit.join(name), text).expect("a file");
            fs::set_permissions(kit.join(name), fs::Permissions::from_mode(0o755)).expect("a mode");
        }
        fs::write(kit.join("packages"), "").expect("a file");
        Checkout { room, top: own, kit }
    }

    fn command(&self, program: PathBuf, words: &[&str]) -> Command {
        let path = std::env::var("PATH").expect("a path");
        let mut command = Command::new(program);
        command
            .args(words)
            .current_dir(self.room.here())
            .stdin(Stdio::null())
            .env("PATH", format!("{}:{path}", self.kit.display()))
            .env("KIT", &self.kit)
            .env("PROGRAM", PROGRAM)
            .env_remove("YALIVUCU_BUILD")
            .env_remove("YALIVUCU_ARCHIVE");
        command
    }

    fn info(&self) -> Command {
        self.command(self.top.join("yalivucu"), &["info", &example("old.pkm")])
    }

    /// What was called since the last time.
    fn calls(&self) -> Vec<String> {
        let said = fs::read_to_string(self.kit.join("calls")).unwrap_or_default();
        let _ = fs::remove_file(self.kit.join("calls"));
        said.lines().map(str::to_owned).collect()
    }

    /// Touches a file, so that its time is another.
    fn touch(&self, name: &str) {
        let ran = self.room.shell(&format!("touch -d '2001-01-01 00:00' {}", self.top.join(name).display()));
        assert_eq!(ran.status, 0);
    }
}

fn ran(command: &mut Command) -> Ran {
    Ran::of(command.output().expect("it runs"))
}

fn spawned(command: &mut Command) -> Child {
    command.stdout(Stdio::piped()).stderr(Stdio::piped()).spawn().expect("it runs")
}

#[test]
fn it_is_built_once_and_again_after_a_change() {
    let checkout = Checkout::new();
    let first = ran(&mut checkout.info());
    assert!(
        first.status == 0 && first.out.contains("old.pkm: PKM, ETC1") && first.err.contains("proving the library"),
        "{first:?}"
    );
    assert_eq!(checkout.calls(), ["archive", "cargo generate-lockfile", "cargo build"]);
    let second = ran(&mut checkout.info());
    second.is_done();
    assert!(checkout.calls().is_empty());
    for (name, calls) in [
        ("crates/numbers/src/lib.rt", &["archive", "cargo build"][..]),
        ("bindings/native.sh", &["archive", "cargo build"]),
        ("program/src/main.rs", &["cargo build"]),
        ("bindings/rust/src/lib.rs", &["cargo build"]),
    ] {
        checkout.touch(name);
        assert_eq!(ran(&mut checkout.info()).status, 0);
        assert_eq!(checkout.calls(), calls, "{name}");
        ran(&mut checkout.info()).is_done();
        assert!(checkout.calls().is_empty(), "{name}: once");
    }
}

#[test]
fn of_runs_at_once_one_builds() {
    let checkout = Checkout::new();
    let runs: Vec<Child> = (0..3).map(|_| spawned(checkout.info().env("SLOW", "2"))).collect();
    let ends: Vec<Ran> = runs.into_iter().map(|run| Ran::of(run.wait_with_output().expect("it ends"))).collect();
    assert!(ends.iter().all(|end| end.status == 0 && end.out.contains("ETC1")), "{ends:?}");
    assert_eq!(ends.iter().filter(|end| end.err.contains("waiting")).count(), 2, "{ends:?}");
    assert_eq!(checkout.calls().iter().filter(|call| *call == "archive").count(), 1);
}

#[test]
fn a_build_that_fails_says_why() {
    let checkout = Checkout::new();
    let failed = ran(checkout.info().env("WRONG", "the sums differ"));
    assert!(failed.status == 64 && failed.err.contains("the sums differ") && failed.out.is_empty(), "{failed:?}");
    fs::remove_file(checkout.kit.join("rt")).expect("a file");
    let path = std::env::var("PATH").expect("a path");
    let without: Vec<&str> = path.split(':').filter(|folder| !PathBuf::from(folder).join("rt").exists()).collect();
    let path = format!("{}:{}", checkout.kit.display(), without.join(":"));
    let none = ran(checkout.info().env("PATH", path));
    assert!(none.status == 64 && none.err.contains("rt is not on the path"), "{none:?}");
    fs::write(checkout.kit.join("rt"), "#!/bin/sh\n").expect("a file");
    fs::set_permissions(checkout.kit.join("rt"), fs::Permissions::from_mode(0o755)).expect("a mode");
    assert_eq!(ran(&mut checkout.info()).status, 0);
}

/// Whether a process has a child that runs a command. A shell that is about to start one can miss a signal.
fn holds(process: u32, command: &str) -> bool {
    let children = fs::read_to_string(format!("/proc/{process}/task/{process}/children")).unwrap_or_default();
    let runs = |child: &str| fs::read_to_string(format!("/proc/{child}/comm")).is_ok_and(|name| name.trim() == command);
    children.split_whitespace().any(runs)
}

#[test]
fn a_signal_ends_the_build() {
    let checkout = Checkout::new();
    // every signal is heard, whatever the one who runs the tests ignores
    let script = checkout.top.join("yalivucu").display().to_string();
    let heard = || checkout.command(PathBuf::from("env"), &["--default-signal", &script, "info", &example("old.pkm")]);
    for (number, name) in [(15, "TERM"), (2, "INT")] {
        checkout.calls();
        let mut run = spawned(heard().env("SLOW", "100").process_group(0));
        while fs::read_to_string(checkout.kit.join("calls")).unwrap_or_default().is_empty() {
            sleep(Duration::from_millis(20));
        }
        let mut waiter = spawned(heard().process_group(0));
        let mut line = String::new();
        BufReader::new(waiter.stderr.take().expect("it")).read_line(&mut line).expect("a line");
        assert!(line.contains("waiting"), "{line}");
        while !holds(waiter.id(), "flock") {
            sleep(Duration::from_millis(20));
        }
        let kill = |who: String| Command::new("kill").args(["-s", name, "--", &who]).status().expect("kill runs");
        kill(format!("-{}", waiter.id()));
        assert_eq!(waiter.wait().expect("it ends").signal(), Some(number), "a run that waits");
        kill(run.id().to_string());
        assert_eq!(run.wait().expect("it ends").signal(), Some(number), "a run that builds");
    }
    // A killed part of the build holds the lock until the system has ended it. One that was not killed would hold it for 100 seconds.
    let lock = checkout.top.join("target/program/lock");
    let free = Command::new("flock").args(["-w", "20"]).arg(lock).arg("true").status().expect("flock runs");
    assert!(free.success(), "a part of a build that was ended holds the lock");
    let next = ran(&mut checkout.info());
    assert!(next.status == 0 && !next.err.contains("waiting"), "{next:?}");
}

#[test]
fn through_links_from_elsewhere() {
    let checkout = Checkout::new();
    fs::create_dir(checkout.room.path("bin")).expect("a folder");
    symlink("../second", checkout.room.path("bin/ya")).expect("a link");
    symlink(checkout.top.join("yalivucu"), checkout.room.path("second")).expect("a link");
    let linked = ran(&mut checkout.command(checkout.room.path("bin/ya"), &["info", &example("old.pkm")]));
    assert!(linked.status == 0 && linked.out.contains("ETC1"), "{linked:?}");
}

#[test]
fn a_checkout_that_may_only_be_read() {
    let checkout = Checkout::new();
    fs::copy(example("old.pkm"), checkout.room.path("old.pkm")).expect("a copy");
    fs::copy(PROGRAM, checkout.room.path("program")).expect("a copy");
    let prepared = checkout
        .room
        .shell("chmod -R a+rX . && chmod 777 kit && mkdir build home && chmod 777 build home && chmod -R a-w checkout");
    assert_eq!(prepared.status, 0, "{prepared:?}");
    let is_root = checkout.room.shell("id -u").out.trim() == "0";
    let who = if is_root { "setpriv --reuid=65534 --regid=65534 --clear-groups" } else { "" };
    let run = |build: &str| {
        let line = format!("{build} {who} checkout/yalivucu info old.pkm");
        let mut command = checkout.command(PathBuf::from("sh"), &["-c", &line]);
        ran(command.env("PROGRAM", checkout.room.path("program")).env("HOME", checkout.room.path("home")))
    };
    let refused = run("");
    assert!(refused.status == 64 && refused.err.contains("YALIVUCU_BUILD"), "{refused:?}");
    let built = run("YALIVUCU_BUILD=$PWD/build");
    assert!(built.status == 0 && built.out.contains("ETC1"), "{built:?}");
    run("YALIVUCU_BUILD=$PWD/build").is_done();
    assert!(!checkout.top.join("target").exists());
    assert_eq!(checkout.room.shell("chmod -R u+w checkout").status, 0);
}

#[test]
fn crates_come_from_where_they_can_be_had() {
    let checkout = Checkout::new();
    fs::remove_file(checkout.kit.join("packages")).expect("a file");
    assert_eq!(ran(checkout.info().env("PUBLIC", "yes")).status, 0);
    assert_eq!(checkout.calls(), ["archive", "cargo fetch", "cargo build"]);
    for user in ["0", "1000"] {
        let checkout = Checkout::new();
        fs::remove_file(checkout.kit.join("packages")).expect("a file");
        fs::write(checkout.kit.join("id"), format!("#!/bin/sh\necho {user}\n")).expect("a file");
        fs::set_permissions(checkout.kit.join("id"), fs::Permissions::from_mode(0o755)).expect("a mode");
        let end = ran(&mut checkout.info());
        let calls = checkout.calls();
        if user == "0" {
            assert_eq!(end.status, 0, "{end:?}");
            assert!(calls.iter().any(|call| call.starts_with("apt-get install -y librust-clap-dev ")), "{calls:?}");
        } else {
            assert!(end.status == 64 && end.err.contains("sudo apt-get install -y librust-clap-dev "), "{end:?}");
            assert!(!calls.iter().any(|call| call.starts_with("apt-get")), "{calls:?}");
        }
    }
}

const INSTALLED: [&str; 8] = [
    "bin/yalivucu",
    "include/yalivucu.h",
    "lib/libyalivucu.a",
    "lib/pkgconfig/yalivucu.pc",
    "share/bash-completion/completions/yalivucu",
    "share/fish/vendor_completions.d/yalivucu.fish",
    "share/man/man1/yalivucu.1",
    "share/zsh/site-functions/_yalivucu",
];

#[test]
fn installed_it_needs_neither_the_checkout_nor_the_kit() {
    let checkout = Checkout::new();
    let (prefix, moved) = (checkout.room.path("prefix"), checkout.room.path("moved"));
    for name in INSTALLED {
        let path = prefix.join(name);
        fs::create_dir_all(path.parent().expect("a folder")).expect("a folder");
        fs::write(path.with_extension("new"), "somebody's").expect("a file");
    }
    let install = |line: &str| ran(&mut checkout.command(PathBuf::from("sh"), &["-c", line]));
    let end = install("umask 077; CDPATH=/ sh checkout/bindings/install prefix");
    assert_eq!(end.status, 0, "{end:?}");
    for name in INSTALLED {
        let path = prefix.join(name);
        let mode = fs::metadata(&path).unwrap_or_else(|why| panic!("{name}: {why}")).permissions().mode();
        assert_eq!(mode & 0o777, if name.starts_with("bin") { 0o755 } else { 0o644 }, "{name}");
        assert_eq!(fs::read(path.with_extension("new")).ok(), Some(b"somebody's".to_vec()), "{name}");
    }
    fs::rename(&prefix, &moved).expect("it moves");
    let png = checkout.room.path("glow.png");
    let end = Command::new(moved.join("bin/yalivucu"))
        .args(["unpack", &example("glow.ktx")])
        .arg(&png)
        .env("PATH", "")
        .output();
    assert!(end.expect("it runs").status.success() && png.exists());
    fs::write(moved.join("bin/yalivucu"), "#!/bin/sh\n# another's\n").expect("a file");
    let end = install("sh checkout/bindings/install moved");
    assert!(end.status == 1 && end.err.contains("another program"), "{end:?}");
    assert!(fs::read_to_string(moved.join("bin/yalivucu")).is_ok_and(|text| text.contains("another's")));
    let end = install("sh checkout/bindings/install --library library");
    assert!(end.status == 0 && !checkout.room.path("library/bin").exists(), "{end:?}");
}

#[test]
fn the_first_command_of_the_readme() {
    let readme = fs::read_to_string(top().join("README.md")).expect("README.md");
    let line = readme.lines().find(|line| line.starts_with("    ./yalivucu")).expect("a command");
    assert!(line.starts_with("    ./yalivucu unpack examples/glow.ktx glow.png"), "{line}");
    let ignored = Command::new("git").args(["check-ignore", "glow.png", "target/program"]).current_dir(top()).output();
    let said = ignored.map(|output| String::from_utf8_lossy(&output.stdout).lines().count());
    assert!(said.is_err() || said.is_ok_and(|count| count == 2), "what it makes is ignored");
}
