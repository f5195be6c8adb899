//! The numbers of a picture as a NumPy file.
use crate::formats::Values;
use crate::png_file::Why;
use crate::samples::Strips;
use crate::work;
use std::io::Write;

/// The header: 64 bytes or a multiple, which say type and shape.
fn header(strips: &Strips) -> Vec<u8> {
    let texture = &strips.texture;
    let number = match texture.kind.values {
        Values::Eight => "|u1",
        Values::Eleven => "<u2",
        Values::ElevenSigned => "<i2",
    };
    let shape = match strips.channels {
        1 => format!("{}, {}", texture.height, texture.width),
        channels => format!("{}, {}, {channels}", texture.height, texture.width),
    };
    let mut text = format!("{{'descr': '{number}', 'fortran_order': False, 'shape': ({shape}), }}");
    while (10 + text.len() + 1) % 64 != 0 {
        text.push(' ');
    }
    text.push('\n');
    let mut bytes = b"\x93NUMPY\x01\x00".to_vec();
    bytes.extend((text.len() as u16).to_le_bytes());
    bytes.extend(text.into_bytes());
    bytes
}

/// Writes a picture's numbers, row by row.
pub fn write<W: Write>(mut out: W, strips: &Strips, threads: usize, mut tick: impl FnMut(usize)) -> Result<(), Why> {
    out.write_all(&header(strips))?;
    work::in_order(
        strips.count(),
        threads,
        |strip| strips.read(strip),
        |strip, samples| -> Result<(), Why> {
            out.write_all(&samples.map_err(Why::Refusal)?)?;
            tick(strip + 1);
            Ok(())
        },
    )?;
    Ok(out.flush()?)
}
