//! Pictures that a desktop's encoder wrote: DDS files of BC1, BC3 and BC7, by libsquish or Pillow and by Mesa.

use crate::protocol::{ask, Case};
use crate::readers::*;
use crate::report::Report;
use crate::second::from_mesa;
use std::io::{Error, Result};

struct Dds {
    readers: &'static [u32],
    width: u32,
    height: u32,
    blocks: Vec<u8>,
}

// The head is 128 bytes: height and width at 12 and 16, and the format in four letters at 84; behind the letters DX10 come
// 20 bytes more, and first a number. What is written without alpha reads alike with it where no index says transparent, and
// is held to both rules.
fn parse(bytes: &[u8]) -> Option<Dds> {
    let word = |at: usize| Some(u32::from_le_bytes(bytes.get(at..at + 4)?.try_into().ok()?));
    let (readers, from): (&[u32], usize) = match bytes.get(84..88)? {
        b"DXT1" => (&[BC1, BC1A], 128),
        b"DXT5" => (&[BC3], 128),
        b"DX10" if word(128)? == 98 => (&[BC7], 148),
        _ => return None,
    };
    Some(Dds { readers, width: word(16)?, height: word(12)?, blocks: bytes.get(from..)?.to_vec() })
}

fn list(folder: &str) -> Result<Vec<String>> {
    let mut paths = Vec::new();
    for entry in std::fs::read_dir(folder)? {
        paths.push(entry?.path().to_string_lossy().into_owned());
    }
    paths.sort();
    Ok(paths)
}

/// Each file, by each decoder that reads its format.
pub fn compare(options: &crate::Options) -> Result<bool> {
    let mut same = true;
    for path in list(&options.desktop)? {
        let dds = parse(&std::fs::read(&path)?)
            .ok_or_else(|| Error::other(format!("{path} is no DDS file of BC1, BC3 or BC7")))?;
        let asked = |reader: &&u32| options.only.is_empty() || options.only == name(**reader);
        for &reader in dds.readers.iter().filter(asked) {
            let other = if reader == BC7 { (&options.pillow, "Pillow") } else { (&options.squish, "squish") };
            for (program, label) in [(&options.mesa, "Mesa"), other] {
                if label == "squish" && reader == BC1 {
                    continue;
                }
                same &= one(&path, &dds, reader, program, label, &options.program)?;
            }
        }
    }
    Ok(same)
}

fn one(path: &str, dds: &Dds, reader: u32, other: &str, label: &str, program: &str) -> Result<bool> {
    let image = vec![0x1111_1111; (dds.width * dds.height) as usize];
    let case = Case { reader, channel: 0, width: dds.width, height: dds.height, data: dds.blocks.clone(), image };
    let file = path.rsplit('/').next().unwrap_or(path);
    let mut report = Report::new(format!("{label} {} of {file}", name(reader)), "", 1);
    let ours = ask(program, vec![case.clone()])?;
    for ((case, seen), (_, got)) in ask(other, vec![case])?.into_iter().zip(ours) {
        report.count(&case, &from_mesa(&case, seen, reader), &got, 0);
    }
    Ok(report.close())
}
