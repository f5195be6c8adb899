//! A PNG that is read: as pixels of eight bits, as the library has them.
use crate::failure::{number, Failure};
use crate::input::{self, Wanted};
use png::Transformations;
use std::ffi::OsStr;
use yalivucu::typed::Refusal;

/// The library reads no picture with a longer side.
const LONGEST: u32 = 65_536;

pub struct Reference {
    pub width: usize,
    pub height: usize,
    /// Alpha, red, green and blue from the highest byte.
    pub pixels: Vec<u32>,
}

impl Reference {
    pub fn read(name: &OsStr) -> Result<Reference, Failure> {
        let bytes = input::read(name, Wanted::All)?.bytes;
        let mut decoder = png::Decoder::new(bytes.as_slice());
        decoder.set_transformations(Transformations::normalize_to_color8());
        decoder.set_limits(png::Limits { bytes: usize::MAX / 2 });
        let mut reader = decoder.read_info().map_err(no_png)?;
        let (width, height) = reader.info().size();
        if width > LONGEST || height > LONGEST {
            return Err(Refusal::TooLarge.into());
        }
        let mut samples = Vec::new();
        let count = reader.output_buffer_size();
        samples
            .try_reserve_exact(count)
            .map_err(|_| Failure::new(number::CANNOT_READ, "the picture does not fit into memory."))?;
        samples.resize(count, 0);
        let frame = reader.next_frame(&mut samples).map_err(no_png)?;
        let channels = frame.color_type.samples();
        let pixels = samples[..frame.buffer_size()].chunks_exact(channels).map(pixel).collect();
        Ok(Reference { width: width as usize, height: height as usize, pixels })
    }

    /// The sixteen pixels of a block; of those outside the picture the nearest inside.
    pub fn tile(&self, block: usize) -> [u32; 16] {
        let (left, top) = crate::texture::pixel_of(block, self.width);
        std::array::from_fn(|k| {
            let x = (left + k % 4).min(self.width - 1);
            let y = (top + k / 4).min(self.height - 1);
            self.pixels[y * self.width + x]
        })
    }
}

fn no_png(why: png::DecodingError) -> Failure {
    Failure::new(number::WRONG_PICTURE, format_args!("it cannot be read as a PNG: {why}."))
}

fn pixel(samples: &[u8]) -> u32 {
    u32::from_be_bytes(match *samples {
        [grey] => [255, grey, grey, grey],
        [grey, alpha] => [alpha, grey, grey, grey],
        [red, green, blue] => [255, red, green, blue],
        [red, green, blue, alpha, ..] => [alpha, red, green, blue],
        [] => [0; 4],
    })
}
