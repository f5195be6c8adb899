//! `check`: may an older viewer show the files?
use super::{for_each, Ended};
use crate::args::Check;
use crate::failure::{number, Failure};
use crate::formats::{self, Kind, Older};
use crate::input::{self, Wanted};
use crate::names::shown;
use crate::report::{self, json_name, json_refusal, Outcome};
use crate::texture::{blamed, left_over, pixel_of};
use crate::End;
use serde_json::{json, Value};
use std::ffi::OsString;
use yalivucu::typed::{self, Refusal};

/// What the older viewer answers of one level.
struct Verdict {
    level: usize,
    width: usize,
    height: usize,
    refusal: Option<Refusal>,
}

/// What it answers of a file.
struct Verdicts {
    container: String,
    kind: &'static Kind,
    levels: Vec<Verdict>,
    /// Bytes behind the blocks, where the viewer must not show a file that has some.
    left_over: Option<Failure>,
}

impl Verdicts {
    fn viewer(&self) -> &'static str {
        match self.kind.older {
            Older::Strict => "a strict ETC1 reader",
            _ => "an opaque-only viewer",
        }
    }

    fn may_show(&self) -> bool {
        self.left_over.is_none() && self.levels.iter().all(|level| level.refusal.is_none())
    }
}

pub fn run(asked: &Check) -> Result<Outcome, End> {
    Ok(for_each(&asked.files, |file| checked(asked, file))?)
}

fn checked(asked: &Check, file: &OsString) -> Result<Outcome, Ended> {
    let verdicts = match verdicts(asked, file) {
        Ok(verdicts) => verdicts,
        Err(why) if asked.json => {
            report::say(&json_refusal(file, &why).to_string()).map_err(Ended::All)?;
            return Ok(Outcome::Refused);
        }
        Err(why) => return Err(why.into()),
    };
    let lines = if asked.json { vec![as_json(file, &verdicts).to_string()] } else { lines(&shown(file), &verdicts) };
    report::say(&lines.join("\n")).map_err(Ended::All)?;
    Ok(if verdicts.may_show() { Outcome::Done } else { Outcome::Refused })
}

fn verdicts(asked: &Check, file: &OsString) -> Result<Verdicts, Failure> {
    let input = input::read(file, Wanted::Texture)?;
    let file = typed::File::open(&input.bytes)?;
    let kind = formats::of(file.format())?;
    let check = match kind.older {
        Older::Strict => typed::check_strict,
        Older::Opaque => typed::check_opaque,
        Older::None => {
            let sentence = format!("it is {}, of which there is no older viewer to ask.", kind.title);
            return Err(Failure::new(number::NO_OLDER_VIEWER, sentence));
        }
    };
    let levels = file.levels().enumerate().map(|(n, level)| {
        let level = level?;
        Ok(Verdict {
            level: n,
            width: level.width(),
            height: level.height(),
            refusal: check(level.data(), level.width(), level.height()).err(),
        })
    });
    let levels = levels.collect::<Result<_, Refusal>>()?;
    let is_left = kind.older == Older::Strict && !asked.more && file.left_over() > 0;
    Ok(Verdicts {
        container: file.container().to_string(),
        kind,
        levels,
        left_over: is_left.then(|| left_over(file.left_over() as u64 + input.unread)),
    })
}

/// One line where the answer is yes; otherwise one for each level, each with the file's name.
fn lines(name: &str, verdicts: &Verdicts) -> Vec<String> {
    let (viewer, count) = (verdicts.viewer(), verdicts.levels.len());
    if verdicts.may_show() {
        let which = match count {
            1 => "level 0 of 1".to_owned(),
            _ => format!("levels 0 to {} of {count}", count - 1),
        };
        return vec![format!("{name}: {which}: {viewer} may show it.")];
    }
    let mut lines = Vec::new();
    if let Some(why) = &verdicts.left_over {
        lines.push(format!("{name}: {viewer} must not show it: {why}"));
    }
    for verdict in &verdicts.levels {
        let level = format!("{name}: level {} of {count}: {viewer}", verdict.level);
        lines.push(match verdict.refusal {
            None => format!("{level} may show it."),
            Some(refusal) => format!("{level} must not show it: {}", blamed(refusal, verdict.width)),
        });
    }
    lines
}

fn as_json(file: &OsString, verdicts: &Verdicts) -> Value {
    let count = verdicts.levels.len();
    let levels = verdicts.levels.iter().map(|verdict| {
        let mut level = json!({
            "level": verdict.level, "of": count, "width": verdict.width, "height": verdict.height,
            "may_show": verdict.refusal.is_none(),
        });
        if let Some(refusal) = verdict.refusal {
            level["number"] = json!(refusal.number());
            level["sentence"] = json!(blamed(refusal, verdict.width).sentence);
            if let Refusal::OutOfRange { block } | Refusal::NotOpaque { block } = refusal {
                let (x, y) = pixel_of(block, verdict.width);
                level["block"] = json!(block);
                level["pixel"] = json!([x, y]);
            }
        }
        level
    });
    json!({
        "file": json_name(file), "container": verdicts.container, "format": verdicts.kind.name,
        "viewer": verdicts.viewer(), "may_show": verdicts.may_show(),
        "left_over": verdicts.left_over.as_ref().map(|why| json!({ "number": why.number, "sentence": why.sentence })),
        "levels": levels.collect::<Vec<_>>(),
    })
}
