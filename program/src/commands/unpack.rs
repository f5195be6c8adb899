//! `unpack`: files to PNG or NumPy files.
use super::{standard_output, threads};
use crate::args::Unpack;
use crate::failure::{number, Failure};
use crate::formats::Values;
use crate::input::{self, identities};
use crate::names::shown;
use crate::output::{Pending, Placed, Rules};
use crate::progress::Progress;
use crate::report::{self, Outcome};
use crate::samples::{Sample, Strips};
use crate::texture::{Levels, Reading, Texture};
use crate::{npy, png_file, work, End};
use std::collections::HashSet;
use std::ffi::{OsStr, OsString};
use std::fs::File;
use std::path::{Path, PathBuf};

/// From so many files or strips on, progress is shown.
const SHOWN_FROM: usize = 16;

/// A file and where it goes.
struct Job {
    file: OsString,
    /// Its name, or why it has none.
    out: Result<PathBuf, Failure>,
}

/// What all files of a call share.
struct Plan<'a> {
    asked: &'a Unpack,
    reading: Reading,
    rules: Rules,
    /// How many threads work on one file.
    threads: usize,
    /// Counts strips, where there is one file, and files where there are more.
    counts_files: bool,
}

pub fn run(asked: &Unpack) -> Result<Outcome, End> {
    let jobs = jobs(asked)?;
    let rules = Rules { reads: identities(jobs.iter().map(|job| &job.file)), force: asked.force };
    let at_once = threads(asked.threads).min(jobs.len());
    let plan = Plan {
        asked,
        reading: asked.reading.reading()?,
        rules,
        threads: (threads(asked.threads) / at_once).max(1),
        counts_files: jobs.len() > 1,
    };
    let progress = Progress::new(if plan.counts_files { jobs.len() } else { 0 }, SHOWN_FROM, "files");
    let mut outcome = Outcome::Done;
    work::in_order(
        jobs.len(),
        at_once,
        |k| plan.unpacked(&jobs[k]),
        |k, ready| {
            progress.tick();
            let said = progress.beside(|| delivered(&jobs[k], ready))?;
            outcome = outcome.and(said);
            Ok::<(), Failure>(())
        },
    )?;
    Ok(outcome)
}

/// Which files go where.
fn jobs(asked: &Unpack) -> Result<Vec<Job>, End> {
    let mut files = asked.files.clone();
    let mut out = asked.out.clone();
    if out.is_none() && asked.into.is_none() && files.len() == 2 && is_out(&files[1]) {
        out = files.pop().map(PathBuf::from);
    }
    if let Some(out) = out {
        if files.len() > 1 {
            return Err(End::WrongCall("-o OUT is for one FILE; --into FOLDER takes several".to_owned()));
        }
        if asked.levels && out == Path::new("-") {
            return Err(End::WrongCall("--levels writes several files, and - is one".to_owned()));
        }
        let out = Ok(out);
        return Ok(files.into_iter().map(|file| Job { file, out: out.clone() }).collect());
    }
    if files.iter().any(|file| file == "-") {
        return Err(End::WrongCall("- has no name; -o OUT gives one".to_owned()));
    }
    Ok(named(files, asked.into.as_deref().unwrap_or(Path::new("."))))
}

/// Whether the second of two words is what is written.
fn is_out(word: &OsStr) -> bool {
    let ending = Path::new(word).extension();
    word == "-" || ending.is_some_and(|ending| ending == "png" || ending == "npy")
}

/// Each file to its name in a folder. Of two files of one name the second gets none.
fn named(files: Vec<OsString>, folder: &Path) -> Vec<Job> {
    let mut taken = HashSet::new();
    let mut job = |file: OsString| {
        let mut name = Path::new(&file).file_name().unwrap_or_default().to_owned();
        name.push(".png");
        let path = if folder == Path::new(".") { PathBuf::from(&name) } else { folder.join(&name) };
        let out = if taken.insert(name) {
            Ok(path)
        } else {
            let sentence = format!("{} is the name of another file of this call, too.", shown(path));
            Err(Failure::new(number::OUT_EXISTS, sentence))
        };
        Job { file, out }
    };
    files.into_iter().map(&mut job).collect()
}

/// Files that are whole and wait for their names, and the line that is said then.
struct Ready {
    pending: Vec<Pending>,
    line: Option<String>,
}

impl Plan<'_> {
    fn unpacked(&self, job: &Job) -> Result<Ready, Failure> {
        let out = job.out.as_ref().map_err(Failure::clone)?;
        let input = input::read(&job.file, self.reading.wanted())?;
        let levels = if self.asked.levels { Levels::All } else { self.asked.reading.levels() };
        let textures = self.reading.accepted(&input, levels)?;
        let mut ready = Ready { pending: Vec::new(), line: None };
        if out == Path::new("-") {
            let texture = textures[0];
            self.written(&texture, out, standard_output()?, Failure::standard_output)?;
            if let Some(note) = self.note(&texture) {
                report::complain(&format!("{}: {note}", shown(&job.file)));
            }
            return Ok(ready);
        }
        for texture in &textures {
            let name = if self.asked.levels { with_level(out, texture.level) } else { out.clone() };
            let (pending, file) = Pending::begin(&name, &self.rules)?;
            self.written(texture, &name, file, |why| pending.cannot(why))?;
            ready.pending.push(pending);
        }
        ready.line = Some(self.line(job, out, &textures));
        Ok(ready)
    }

    /// Writes one level.
    fn written(
        &self,
        texture: &Texture,
        name: &Path,
        file: File,
        system: impl FnOnce(&std::io::Error) -> Failure,
    ) -> Result<(), Failure> {
        let is_turned = self.asked.upright && texture.is_bottom_up;
        let is_npy = name.extension().is_some_and(|ending| ending == "npy");
        let strips = if is_npy {
            let is_eight = texture.kind.values == Values::Eight;
            let sample = if is_eight { Sample::Byte } else { Sample::Number };
            Strips::new(*texture, sample, texture.kind.channels.count(), is_turned)
        } else {
            Strips::new(*texture, self.sample(texture)?, png_file::channels(texture.kind), is_turned)
        };
        let count = if self.counts_files { 0 } else { strips.count() };
        let progress = Progress::new(count, SHOWN_FROM, "strips");
        let tick = |_| progress.tick();
        let done = if is_npy {
            npy::write(file, &strips, self.threads, tick)
        } else {
            png_file::write(file, &strips, self.threads, tick)
        };
        done.map_err(|why| why.failure(system))
    }

    /// How a PNG has the samples of a picture.
    fn sample(&self, texture: &Texture) -> Result<Sample, Failure> {
        if self.asked.bits != "16" {
            return Ok(Sample::Byte);
        }
        if texture.kind.values == Values::Eight {
            let sentence = format!("--bits 16 is for EAC, and {} has eight bits.", texture.kind.title);
            return Err(Failure::new(number::WRONG_FORMAT, sentence));
        }
        Ok(Sample::Widened)
    }

    /// What has to be said of a picture besides.
    fn note(&self, texture: &Texture) -> Option<&'static str> {
        (texture.is_bottom_up && !self.asked.upright)
            .then_some("the first row is the bottom one and was written first, as stored; --upright turns it")
    }

    fn line(&self, job: &Job, out: &Path, textures: &[Texture]) -> String {
        let texture = &textures[0];
        let mut line = format!("{}: {}, {} x {}", shown(&job.file), texture.kind.title, texture.width, texture.height);
        if self.asked.levels {
            line += &format!(", {} levels from {} on", textures.len(), shown(with_level(out, 0)));
        } else {
            if texture.level_count > 1 {
                line += &format!(", level {} of {}", texture.level, texture.level_count);
            }
            line += &format!(", to {}", shown(out));
        }
        if let Some(note) = self.note(texture) {
            line += &format!("; {note}");
        }
        line
    }
}

/// The name of a level: its number stands before the ending.
fn with_level(out: &Path, level: usize) -> PathBuf {
    let ending = out.extension().unwrap_or_default().to_owned();
    let mut name = out.file_stem().unwrap_or_default().to_owned();
    name.push(format!(".{level}"));
    if !ending.is_empty() {
        name.push(".");
        name.push(ending);
    }
    out.with_file_name(name)
}

/// Gives the files of a job their names, all or none of them, and says so.
fn delivered(job: &Job, ready: Result<Ready, Failure>) -> Result<Outcome, Failure> {
    let placed = ready.and_then(|ready| Ok((placed(ready.pending)?, ready.line)));
    let (placed, line) = match placed {
        Ok(placed) => placed,
        Err(why) => {
            report::refuse(&job.file, &why);
            return Ok(Outcome::Refused);
        }
    };
    if let Some(Err(why)) = line.map(|line| report::say(&line)) {
        placed.into_iter().for_each(Placed::undo);
        return Err(why);
    }
    Ok(Outcome::Done)
}

fn placed(pending: Vec<Pending>) -> Result<Vec<Placed>, Failure> {
    let mut placed = Vec::new();
    for one in pending {
        match one.place() {
            Ok(one) => placed.push(one),
            Err(why) => {
                placed.into_iter().for_each(Placed::undo);
                return Err(why);
            }
        }
    }
    Ok(placed)
}
