"""What tools/try-edit and tools/doubt know of the kit: how it checks a copy of a crate, over the libraries that this checkout has proved."""
import functools
import os
import pathlib
import re
import shutil
import subprocess

TOP = pathlib.Path(__file__).resolve().parent.parent
PARTS = ("src", "specs", "proofs")


@functools.lru_cache(maxsize=None)
def kit():
    """The kit's folder."""
    said = subprocess.run(["rt", "doc"], capture_output=True, text=True, check=True).stdout
    return pathlib.Path(said.strip()).parent


@functools.lru_cache(maxsize=None)
def listed():
    """What crates.txt says of each crate: the words beside its name, and the libraries that it uses."""
    found = {}
    for line in (TOP / "crates.txt").read_text(encoding="utf-8").splitlines():
        head, colon, uses = line.partition("#")[0].partition(":")
        if colon:
            name, *kind = head.split()
            found[name] = kind, uses.split()
    return found


def below(crate):
    """The repository's libraries below a crate, each after those that it uses."""
    found = {}
    for name in listed()[crate][1]:
        if name in listed():
            found.update(dict.fromkeys([*below(name), name]))
    return list(found)


def prepared(crate):
    """Proves a crate and what stands below it, where that has changed, and returns whether it is proved, and what was said."""
    run = subprocess.run(["rt", "check"], cwd=TOP / "crates" / crate, capture_output=True, text=True, check=False)
    return run.returncode == 0, run.stdout + run.stderr


def copied(crate, folder):
    """Copies a crate's text into a folder."""
    for part in PARTS:
        if (TOP / "crates" / crate / part).is_dir():
            shutil.copytree(TOP / "crates" / crate / part, folder / part)


def with_kept(crate, folder):
    """Gives a copy of a crate what the check of the crate itself kept: by links where these can be made, since a check replaces such a file."""

    def give(one, other):
        try:
            if one.endswith(".oantt"):
                return os.link(one, other)
        except OSError:
            pass
        return shutil.copy2(one, other)

    kept = TOP / "crates" / crate / "out" / "incremental"
    if kept.is_dir():
        shutil.copytree(kept, folder / "kept", copy_function=give)
    return ["--incremental", "kept"]


def check(crate, folder, *flags, seconds=None):
    """Checks the copy of a crate in a folder. As `rt must-fail` does it: by the kit's `rattle check`, with the libraries as they are built here."""
    kind, uses = listed()[crate]
    own = [name for name in uses if name in listed()]
    rlib = lambda name: TOP / "crates" / name / "out" / "rlib" / f"{name}.rlib"
    is_program = (folder / "src" / "main.rt").is_file()
    words = ["check", "--crate-name", crate, "src/main.rt" if is_program else "src/lib.rt", "--jobs", "1", "--links", f"{crate}="]
    for name in ["std", *(name for name in uses if name not in listed())]:
        words += ["--extern", f"{name}={kit()}/rlibs/{name}.rlib"]
    words += ["-L", f"dependency={kit()}/rlibs"]
    for name in own:
        words += ["--extern", f"{name}={rlib(name)}"]
    for name in below(crate):
        words += ["-L", f"dependency={rlib(name).parent}"]
    words += ["--antt-project", f"{kit()}/rattle/logic/antt-project.json", "--logic-built", f"{kit()}/logic_built"]
    words += ["--crate-type", "staticlib"] if "staticlib" in kind else []
    how = {"cwd": folder, "stdin": subprocess.DEVNULL, "stdout": subprocess.PIPE, "stderr": subprocess.STDOUT, "text": True, "errors": "replace"}
    return subprocess.run([kit() / "bin" / "rattle", *words, *flags], timeout=seconds, check=False, **how)


def edited(edit, folder):
    """Applies an edit to the copy of its crate, as `rt` reads it: a `file:` line holds for the pairs behind it, each old text stands there once.

    Returns why it does not fit, or None.
    """
    path = old = ""
    pairs, texts = 0, {}
    for line in edit.read_text(encoding="utf-8").split("\n"):
        if line.startswith("file: "):
            path = line[len("file: "):].strip()
        elif line.startswith("old: "):
            old = line[len("old: "):]
        elif line.startswith("new:"):
            if not path.startswith(tuple(f"{part}/" for part in PARTS)) or not (folder / path).is_file():
                return f"{path or 'it'} is no file of the crate"
            text = texts.get(path) or (folder / path).read_text(encoding="utf-8")
            if not old or text.count(old) != 1:
                return f"the text to replace stands in {path} {text.count(old) if old else 0} times: {old}"
            texts[path] = text.replace(old, line[len("new:"):].removeprefix(" "))
            old, pairs = "", pairs + 1
    for name, text in texts.items():
        (folder / name).write_text(text, encoding="utf-8")
    return None if pairs else "it has no `old:` and `new:` pair"


def is_unread(output, changed):
    """Whether the prover could not read the edited text, so that no contract was tried; by the words that `rt` looks for."""
    for line in output.splitlines():
        at = re.match(r"(?:\./)?(\S+?):\d+:\d+: error: (?:(`[^`]*`): )?(.*)", line)
        if at and (at[1] in changed or at[1].startswith(("src/", "specs/"))):
            said = re.sub(r"`[^`]*`", "", at[3])
            if not at[2] or re.search(r"is not in scope|has no field|is no name|operand is missing|expected the end|cannot continue", said):
                return True
    return False
