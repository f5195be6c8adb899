//! `degrees`: what a legend predicts at points of a picture, beside what was measured there.
use crate::args::Degrees;
use crate::failure::{number, Failure};
use crate::input;
use crate::names::shown;
use crate::report::{self, Outcome};
use crate::texture::{Reading, Texture};
use crate::End;
use std::io::{self, BufRead, BufWriter, IsTerminal, Write};
use yalivucu::typed::{degrees, read_block, read_strict, Picture};

const HEADING: &str = "x,y,measured";
const ANSWERED: &str = "predicted,measured,difference";
/// An opaque pixel, with which legend and digits are judged before a point is read.
const OPAQUE: u32 = 0xff00_0000;

pub fn run(asked: &Degrees) -> Result<Outcome, End> {
    if asked.file == "-" && asked.points.is_empty() {
        return Err(End::WrongCall("- is the picture, so the points have to be words".to_owned()));
    }
    let reading = asked.reading.reading()?;
    Ok(read(asked, &reading).or_else(|why| {
        report::refuse(&asked.file, &why);
        Ok::<_, Failure>(Outcome::Refused)
    })?)
}

fn read(asked: &Degrees, reading: &Reading) -> Result<Outcome, Failure> {
    let (legend_digit, picture_digit) = (asked.legend_digit as usize, asked.picture_digit as usize);
    degrees(asked.legend, legend_digit, picture_digit, OPAQUE, 0.0)?;
    let input = input::read(&asked.file, reading.wanted())?;
    let texture = reading.accepted(&input, asked.reading.levels())?[0];
    let mut out = BufWriter::new(io::stdout().lock());
    let mut answer = |row: usize, text: &str| -> Result<(), Failure> {
        let line = answered(asked, &texture, text).map_err(|why| at_row(why, row, text))?;
        writeln!(out, "{line}").map_err(|why| Failure::standard_output(&why))
    };
    if asked.points.is_empty() {
        rows(&mut answer)?;
    } else {
        for (k, point) in asked.points.iter().enumerate() {
            answer(k + 1, point)?;
        }
    }
    out.flush().map_err(|why| Failure::standard_output(&why))?;
    Ok(Outcome::Done)
}

/// Every row of standard input.
fn rows(answer: &mut impl FnMut(usize, &str) -> Result<(), Failure>) -> Result<(), Failure> {
    if io::stdin().is_terminal() {
        let sentence = "standard input is a terminal; points are read from a file or a pipe, or given as words.";
        return Err(Failure::new(number::CANNOT_READ, sentence));
    }
    for (k, line) in io::stdin().lock().lines().enumerate() {
        let cannot = |why| {
            let sentence = format!("row {} of standard input cannot be read: {why}.", k + 1);
            Failure::new(number::CANNOT_READ, sentence)
        };
        let line = line.map_err(cannot)?;
        if !line.trim().is_empty() {
            answer(k + 1, line.trim())?;
        }
    }
    Ok(())
}

fn at_row(why: Failure, row: usize, text: &str) -> Failure {
    Failure { sentence: format!("row {row} ({}): {}", shown(text), why.sentence), number: why.number }
}

/// The row that answers a point.
fn answered(asked: &Degrees, texture: &Texture, text: &str) -> Result<String, Failure> {
    if text == HEADING {
        return Ok(ANSWERED.to_owned());
    }
    let no_point = |sentence: String| Failure::new(number::NO_POINT, sentence);
    let words: Vec<&str> = text.split(',').map(str::trim).collect();
    let &[x, y, measured] = words.as_slice() else {
        return Err(no_point("a point is x,y,measured.".to_owned()));
    };
    let place = |word: &str| word.parse::<usize>().map_err(|_| no_point(format!("'{}' is no place.", shown(word))));
    let (x, y) = (place(x)?, place(y)?);
    let degree = |word: &str| word.parse::<f32>().map_err(|_| no_point(format!("'{}' is no number.", shown(word))));
    let measured = degree(measured)?;
    if x >= texture.width || y >= texture.height {
        let size = format!("{} x {}", texture.width, texture.height);
        return Err(no_point(format!("the picture has {size} pixels, and the point lies outside.")));
    }
    let pixel = pixel_at(texture, x, y)?;
    let (legend_digit, picture_digit) = (asked.legend_digit as usize, asked.picture_digit as usize);
    Ok(match degrees(asked.legend, legend_digit, picture_digit, pixel, measured)? {
        Some(reading) => format!("{},{},{}", reading.predicted, reading.measured, reading.difference),
        None => format!(",{measured},"),
    })
}

/// A pixel, of whose picture one block is read.
fn pixel_at(texture: &Texture, x: usize, y: usize) -> Result<u32, Failure> {
    let size = texture.kind.format.block_size();
    let block = y / 4 * texture.width.div_ceil(4) + x / 4;
    let data = &texture.data[block * size..(block + 1) * size];
    let mut tile = [0; 16];
    if texture.is_strict {
        read_strict(data, Picture::new(4, 4), &mut tile)?;
    } else {
        read_block(texture.kind.format, data, &mut tile)?;
    }
    Ok(tile[y % 4 * 4 + x % 4])
}
