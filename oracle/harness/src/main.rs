//! Feeds one set of cases to a program under test and to other decoders, and counts
//! the differences; or writes down what the other decoders answer. Run by oracle/compare,
//! oracle/second and oracle/record, which say how.

mod bakings;
mod bits;
mod blocks;
mod cases;
mod census;
mod desktop;
mod examples;
mod expected;
mod pictures;
mod pieces;
mod pitched;
mod protocol;
mod random;
mod readers;
mod record;
mod report;
mod rows;
mod rules;
mod second;
mod specimens;
mod stored;
mod swept;

use protocol::Peer;
use report::Report;
use std::io::Result;
use std::process::ExitCode;

pub struct Options {
    seed: u64,
    blocks: usize,
    listed: Vec<String>,
    /// Programs that speak the protocol, and the folder of published pictures.
    mesa: String,
    android: String,
    squish: String,
    pillow: String,
    pictures: String,
    /// The folder of pictures that nvcompress wrote.
    desktop: String,
    program: String,
    /// The one reader that is asked, where there is one.
    only: String,
    /// What the stored list says of itself, and the folder that it goes to.
    about: String,
    folder: String,
    /// Rows of oracle/bake.
    bakings: String,
}

fn options(words: &[String]) -> Options {
    let value = |name: &str| words.windows(2).find(|pair| pair[0] == name).map(|pair| pair[1].clone());
    let text = |name: &str| value(name).unwrap_or_default();
    let number = |name: &str, default: u64| value(name).map_or(default, |text| text.parse().expect("a number"));
    Options {
        seed: number("--seed", 1),
        blocks: number("--blocks", 300_000) as usize,
        listed: text("--listed").split(',').map(str::to_string).collect(),
        mesa: text("--mesa"),
        android: text("--android"),
        squish: text("--squish"),
        pillow: text("--pillow"),
        only: text("--only"),
        pictures: text("--pictures"),
        desktop: text("--desktop"),
        program: text("--program"),
        about: text("--about"),
        folder: text("--folder"),
        bakings: text("--bakings"),
    }
}

fn main() -> ExitCode {
    let words: Vec<String> = std::env::args().skip(1).collect();
    let options = options(words.get(1..).unwrap_or(&[]));
    protocol::watch();
    let same = match words.first().map(String::as_str) {
        Some("compare") => compare(&options),
        Some("second") => second(&options),
        Some("record") => record::record(&options),
        Some("specimens") => rows::write(&options),
        _ => Err(std::io::Error::other("the first word is compare, second, record or specimens")),
    };
    match same {
        Ok(true) => ExitCode::SUCCESS,
        Ok(false) => ExitCode::from(1),
        Err(error) => {
            eprintln!("oracle: {error}");
            ExitCode::from(2)
        }
    }
}

fn compare(options: &Options) -> Result<bool> {
    let mut same = expected::is_listed(&options.listed, expected::REFUSALS_ADDED);
    if !same {
        println!("refusals that the crate does not have are expected, and are not listed");
    }
    same &= compare_specimens(options)?;
    same &= examples::of_crate(&options.program)?;
    same &= examples::crate_has_no_such_refusal();
    same &= examples::modeless_are_refused(&options.program)?;
    same &= examples::lowest_base_counted();
    same &= census::by_hand(&options.program)?;
    let asked = |reader: &u32| options.only.is_empty() || options.only == readers::name(*reader);
    for reader in readers::PICTURES.into_iter().chain(readers::BLOCKS).chain(readers::CENSUSES).filter(asked) {
        let shapes = cases::plan(reader, options.seed, options.blocks);
        same &= compare_reader(readers::name(reader).to_string(), shapes, options)?;
    }
    for reader in readers::PICTURES.into_iter().filter(asked) {
        let shapes = cases::pitched_plan(reader, options.seed, options.blocks);
        same &= compare_reader(format!("{}, with a pitch", readers::name(reader)), shapes, options)?;
    }
    Ok(same)
}

// The document's own values are held to both: to the program, and to the crate by the listed equations.
fn compare_specimens(options: &Options) -> Result<bool> {
    let (cases, due): (Vec<_>, Vec<_>) = specimens::specimens().into_iter().map(|s| (s.case, s.due)).unzip();
    let mut report = Report::new("document 01's specimens".to_string(), "", cases.len());
    let mut by_crate =
        Report::new("the crate, 01's specimens".to_string(), "pixels by a listed difference", cases.len());
    for ((case, got), due) in protocol::ask(&options.program, cases)?.into_iter().zip(due) {
        report.count(&case, &due, &got, 0);
        let given = expected::expected(&case, &options.listed);
        by_crate.count(&case, &due, &given.answer, given.touched);
    }
    Ok(report.close() & by_crate.close())
}

fn second(options: &Options) -> Result<bool> {
    if !options.only.is_empty() {
        return second::only(options);
    }
    let mut same = true;
    for path in pictures::list(&options.pictures)? {
        same &= pictures::compare(&path, &options.program)?;
    }
    same &= second::specimens(&options.android, &options.mesa)?;
    same &= examples::of_seconds(&options.mesa, &options.android, &options.program)?;
    same &= second::android(options)?;
    same &= second::mesa(options)?;
    same &= second::every_base(options)?;
    same &= second::squish(options)?;
    same &= second::pillow(options)?;
    same &= desktop::compare(options)?;
    same &= second::with_a_pitch(options)?;
    Ok(same)
}

fn compare_reader(what: String, shapes: Vec<cases::Shape>, options: &Options) -> Result<bool> {
    let mut report = Report::new(what, "pixels by a listed difference", shapes.len());
    let mut peer = Peer::start(&options.program, shapes.into_iter().map(|shape| shape.case()))?;
    while let Some((case, got)) = peer.next()? {
        let due = expected::expected(&case, &options.listed);
        report.count(&case, &due.answer, &got, due.touched);
    }
    peer.finish()?;
    Ok(report.close())
}
