//! `info`: what the files tell of themselves.
use super::{for_each, Ended};
use crate::args::Info;
use crate::failure::Failure;
use crate::formats::{self, Kind};
use crate::input::{self, Wanted};
use crate::names::shown;
use crate::report::{self, json_name, json_refusal, Outcome};
use crate::End;
use serde_json::{json, Map, Value};
use std::ffi::OsString;
use yalivucu::typed::{self, census_etc2_rgb, census_etc2_rgba1, Format, KindCounts, Orientation};

/// How many blocks of a level are of each kind, by name.
type Counts = Vec<(&'static str, usize)>;

/// One level.
struct Level {
    width: usize,
    height: usize,
    bytes: usize,
    /// Where it was asked for, and there is one of the format.
    counts: Option<Counts>,
}

/// What is told of a file.
struct Facts {
    container: String,
    kind: &'static Kind,
    is_srgb: bool,
    is_big_endian: bool,
    orientation: Orientation,
    left_over: u64,
    levels: Vec<Level>,
}

pub fn run(asked: &Info) -> Result<Outcome, End> {
    Ok(for_each(&asked.files, |file| told(asked, file))?)
}

fn told(asked: &Info, file: &OsString) -> Result<Outcome, Ended> {
    let text = match facts(asked, file) {
        Ok(facts) if asked.json => as_json(file, &facts).to_string(),
        Ok(facts) => lines(&shown(file), &facts, asked.census).join("\n"),
        Err(why) if asked.json => {
            report::say(&json_refusal(file, &why).to_string()).map_err(Ended::All)?;
            return Ok(Outcome::Refused);
        }
        Err(why) => return Err(why.into()),
    };
    report::say(&text).map_err(Ended::All)?;
    Ok(Outcome::Done)
}

fn facts(asked: &Info, file: &OsString) -> Result<Facts, Failure> {
    let input = input::read(file, Wanted::Texture)?;
    let file = typed::File::open(&input.bytes)?;
    let mut levels = Vec::new();
    for level in file.levels() {
        let level = level?;
        levels.push(Level {
            width: level.width(),
            height: level.height(),
            bytes: level.data().len(),
            counts: if asked.census { counts(&level)? } else { None },
        });
    }
    let left_over = file.left_over() as u64;
    Ok(Facts {
        container: file.container().to_string(),
        kind: formats::of(file.format())?,
        is_srgb: file.is_srgb(),
        is_big_endian: file.is_big_endian(),
        orientation: file.orientation(),
        left_over: left_over + if left_over > 0 { input.unread } else { 0 },
        levels,
    })
}

fn counts(level: &typed::Level) -> Result<Option<Counts>, Failure> {
    Ok(match level.format() {
        Format::Etc1 | Format::Etc2Rgb => {
            let found = census_etc2_rgb(level.data(), level.picture())?;
            Some(vec![
                ("individual", found.individual),
                ("differential", found.differential),
                ("T", found.t),
                ("H", found.h),
                ("planar", found.planar),
            ])
        }
        Format::Etc2Rgba1 => {
            let found = census_etc2_rgba1(level.data(), level.picture())?;
            let named = |names: [&'static str; 4], of: KindCounts| {
                names.into_iter().zip([of.differential, of.t, of.h, of.planar])
            };
            let opaque = named(["opaque differential", "opaque T", "opaque H", "opaque planar"], found.opaque);
            let clear = named(["clear differential", "clear T", "clear H", "clear planar"], found.clear);
            Some(opaque.chain(clear).collect())
        }
        _ => None,
    })
}

fn orientation(facts: &Facts) -> Option<&'static str> {
    match facts.orientation {
        Orientation::Untold => None,
        Orientation::TopDown => Some("first row is the top one"),
        Orientation::BottomUp => Some("first row is the bottom one"),
    }
}

fn lines(name: &str, facts: &Facts, census: bool) -> Vec<String> {
    let largest = &facts.levels[0];
    let size = facts.kind.format.block_size();
    let count = facts.levels.len();
    let mut first = format!(
        "{name}: {}, {}, {} x {}, {} blocks of {size} bytes, {count} {}, {}, {}",
        facts.container,
        facts.kind.title,
        largest.width,
        largest.height,
        largest.bytes / size,
        if count == 1 { "level" } else { "levels" },
        if facts.is_srgb { "sRGB" } else { "linear" },
        if facts.is_big_endian { "big endian" } else { "little endian" },
    );
    if let Some(orientation) = orientation(facts) {
        first += &format!(", {orientation}");
    }
    if facts.left_over > 0 {
        first += &format!(", {} bytes left over", facts.left_over);
    }
    let mut lines = vec![first];
    for (n, level) in facts.levels.iter().enumerate().filter(|_| census) {
        let counts = match &level.counts {
            Some(counts) => counts.iter().map(|(kind, count)| format!("{count} {kind}")).collect::<Vec<_>>().join(", "),
            None => "this format has no census".to_owned(),
        };
        lines.push(format!("{name}: level {n} of {count}, {} x {}: {counts}", level.width, level.height));
    }
    lines
}

fn as_json(file: &OsString, facts: &Facts) -> Value {
    let size = facts.kind.format.block_size();
    let levels = facts.levels.iter().enumerate().map(|(n, level)| {
        let census = level.counts.as_ref().map(|counts| {
            let members = counts.iter().map(|(kind, count)| ((*kind).to_owned(), json!(count)));
            Value::Object(members.collect::<Map<_, _>>())
        });
        json!({
            "level": n, "width": level.width, "height": level.height, "blocks": level.bytes / size, "bytes": level.bytes,
            "census": census,
        })
    });
    json!({
        "file": json_name(file), "container": facts.container, "format": facts.kind.name,
        "width": facts.levels[0].width, "height": facts.levels[0].height, "block_bytes": size,
        "srgb": facts.is_srgb, "byte_order": if facts.is_big_endian { "big endian" } else { "little endian" },
        "orientation": match facts.orientation {
            Orientation::Untold => Value::Null,
            Orientation::TopDown => json!("top down"),
            Orientation::BottomUp => json!("bottom up"),
        },
        "left_over": facts.left_over, "levels": levels.collect::<Vec<_>>(),
    })
}
