//! `sheet`: the blocks of a file as a sheet.
use super::deliver;
use crate::args::Sheet;
use crate::failure::Failure;
use crate::input::{self, identities};
use crate::names::shown;
use crate::output::Rules;
use crate::report::{self, Outcome};
use crate::texture::Reading;
use crate::End;
use yalivucu::typed::write_sheet;

/// A sheet's head and the heads of its records have fewer bytes.
const HEADS: usize = 64;

pub fn run(asked: &Sheet) -> Result<Outcome, End> {
    let reading = asked.reading.reading()?;
    let rules = Rules { reads: identities([&asked.file]), force: asked.force };
    Ok(written(asked, &reading, &rules).or_else(|why| {
        report::refuse(&asked.file, &why);
        Ok::<_, Failure>(Outcome::Refused)
    })?)
}

fn written(asked: &Sheet, reading: &Reading, rules: &Rules) -> Result<Outcome, Failure> {
    let input = input::read(&asked.file, reading.wanted())?;
    let texture = reading.accepted(&input, asked.reading.levels())?[0];
    let mut sheet = vec![0; texture.data.len() + HEADS];
    let count = write_sheet(texture.kind.format, texture.picture(), texture.data, &mut sheet)?;
    let line = format!(
        "{}: {}, {} x {}, level {} of {}, to {}",
        shown(&asked.file),
        texture.kind.title,
        texture.width,
        texture.height,
        texture.level,
        texture.level_count,
        shown(&asked.out)
    );
    deliver(&asked.out, rules, &sheet[..count], &line)
}
