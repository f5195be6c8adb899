//! Pixels of the library as samples of a file: strips of a picture, each some rows of blocks.
use crate::formats::{Channels, Values};
use crate::texture::Texture;
use std::ops::Range;
use yalivucu::typed::{self, Picture, Refusal};

/// About as many bytes of samples as a strip has.
const STRIP: usize = 1 << 18;

/// How a sample is written.
#[derive(Clone, Copy, Debug, PartialEq, Eq)]
pub enum Sample {
    /// One byte.
    Byte,
    /// Eleven bits widened to sixteen by repeating them, high byte first; a signed value after 1023 is added.
    Widened,
    /// The number itself, in two bytes, low byte first.
    Number,
}

impl Sample {
    pub fn bytes(self) -> usize {
        match self {
            Sample::Byte => 1,
            Sample::Widened | Sample::Number => 2,
        }
    }
}

/// A picture cut into strips.
#[derive(Clone, Copy)]
pub struct Strips<'a> {
    pub texture: Texture<'a>,
    pub sample: Sample,
    /// How many samples a pixel has in the file.
    pub channels: usize,
    /// The last row comes first.
    pub is_turned: bool,
    /// Rows of blocks of a strip.
    rows: usize,
}

impl<'a> Strips<'a> {
    pub fn new(texture: Texture<'a>, sample: Sample, channels: usize, is_turned: bool) -> Strips<'a> {
        let row_of_blocks = 4 * texture.width * channels * sample.bytes();
        Strips { texture, sample, channels, is_turned, rows: (STRIP / row_of_blocks.max(1)).max(1) }
    }

    /// How many strips there are.
    pub fn count(&self) -> usize {
        self.texture.height.div_ceil(4).div_ceil(self.rows)
    }

    /// The bytes of a row of samples.
    pub fn row_bytes(&self) -> usize {
        self.texture.width * self.channels * self.sample.bytes()
    }

    /// The rows of blocks of a strip, counted from the top of what is written.
    fn rows_of_blocks(&self, strip: usize) -> Range<usize> {
        let all = self.texture.height.div_ceil(4);
        let strip = if self.is_turned { self.count() - 1 - strip } else { strip };
        strip * self.rows..((strip + 1) * self.rows).min(all)
    }

    /// The samples of a strip, row after row.
    pub fn read(&self, strip: usize) -> Result<Vec<u8>, Refusal> {
        let rows = self.rows_of_blocks(strip);
        let texture = &self.texture;
        let row_of_blocks = texture.width.div_ceil(4) * texture.kind.format.block_size();
        let data = &texture.data[rows.start * row_of_blocks..rows.end * row_of_blocks];
        let height = (rows.end * 4).min(texture.height) - rows.start * 4;
        let samples = self.samples(data, Picture::new(texture.width, height))?;
        Ok(if self.is_turned { samples.chunks(self.row_bytes()).rev().flatten().copied().collect() } else { samples })
    }

    fn samples(&self, data: &[u8], picture: Picture) -> Result<Vec<u8>, Refusal> {
        let count = picture.width * picture.height;
        if self.sample == Sample::Byte {
            let mut image = vec![0; count];
            if self.texture.is_strict {
                typed::read_strict(data, picture, &mut image)?;
            } else {
                typed::read(self.texture.kind.format, data, picture, &mut image)?;
            }
            return Ok(bytes_of(&image, self.texture.kind.channels, self.channels));
        }
        self.whole_values(data, picture, count * self.texture.kind.channels.count())
    }

    /// All eleven bits of EAC.
    fn whole_values(&self, data: &[u8], picture: Picture, count: usize) -> Result<Vec<u8>, Refusal> {
        let has_green = self.texture.kind.channels == Channels::RedGreen;
        let own = self.texture.kind.channels.count();
        if self.texture.kind.values == Values::ElevenSigned {
            let mut values = vec![0i16; count];
            let reader = if has_green { typed::decode_eacrg11_signed } else { typed::decode_eacr11_signed };
            reader(data, picture, &mut values)?;
            return Ok(match self.sample {
                Sample::Number => values.iter().flat_map(|value| value.to_le_bytes()).collect(),
                _ => widened(values.iter().map(|value| (value + 1023) as u16), own, self.channels),
            });
        }
        let mut values = vec![0u16; count];
        let reader = if has_green { typed::decode_eacrg11 } else { typed::decode_eacr11 };
        reader(data, picture, &mut values)?;
        Ok(match self.sample {
            Sample::Number => values.iter().flat_map(|value| value.to_le_bytes()).collect(),
            _ => widened(values.iter().copied(), own, self.channels),
        })
    }
}

/// Eleven bits as sixteen, so that `>> 5` gives them back; with a sample of 0 for each channel that the format has not.
fn widened(values: impl Iterator<Item = u16>, own: usize, channels: usize) -> Vec<u8> {
    let mut bytes = Vec::new();
    for (k, value) in values.enumerate() {
        bytes.extend((value << 5 | value >> 6).to_be_bytes());
        if k % own == own - 1 {
            bytes.resize(bytes.len() + 2 * (channels - own), 0);
        }
    }
    bytes
}

/// The channels of pixels, which have alpha, red, green and blue from the highest byte. A channel that the file has and the
/// format has not, the blue of RG, is the library's own, 0.
fn bytes_of(image: &[u32], own: Channels, channels: usize) -> Vec<u8> {
    let mut bytes = vec![0; image.len() * channels];
    match (own, channels) {
        (Channels::Red, _) => fill(&mut bytes, image, |[_, red, _, _]| [red]),
        (Channels::RedGreen, 2) => fill(&mut bytes, image, |[_, red, green, _]| [red, green]),
        (Channels::RedGreen | Channels::Rgb, _) => fill(&mut bytes, image, |[_, red, green, blue]| [red, green, blue]),
        (Channels::Rgba, _) => fill(&mut bytes, image, |[alpha, red, green, blue]| [red, green, blue, alpha]),
    }
    bytes
}

fn fill<const N: usize>(bytes: &mut [u8], image: &[u32], samples: impl Fn([u8; 4]) -> [u8; N]) {
    for (place, pixel) in bytes.chunks_exact_mut(N).zip(image) {
        place.copy_from_slice(&samples(pixel.to_be_bytes()));
    }
}

#[cfg(test)]
mod tests {
    use super::*;
    use crate::formats;
    use yalivucu::typed::Format;

    /// The strips of a picture, one after another.
    fn rows(strips: &Strips) -> Vec<Vec<u8>> {
        let samples: Vec<u8> = (0..strips.count()).flat_map(|strip| strips.read(strip).expect("samples")).collect();
        samples.chunks(strips.row_bytes()).map(<[u8]>::to_vec).collect()
    }

    #[test]
    fn a_turned_picture_has_the_same_rows_from_the_last_to_the_first() {
        for (width, height) in [(5, 1), (30, 18), (500, 1001)] {
            let data: Vec<u8> = (0..Picture::new(width, height).bytes(Format::Etc2Rgba8).expect("a size"))
                .map(|k| ((k * k) >> 3) as u8)
                .collect();
            let kind = formats::of(Format::Etc2Rgba8).expect("a format");
            let plain = Texture {
                kind,
                level: 0,
                level_count: 1,
                width,
                height,
                data: &data,
                is_srgb: false,
                is_bottom_up: true,
                is_strict: false,
            };
            let upright = rows(&Strips::new(plain, Sample::Byte, 4, false));
            let mut turned = rows(&Strips::new(plain, Sample::Byte, 4, true));
            turned.reverse();
            assert!(upright == turned && upright.len() == height, "{width} x {height}");
        }
    }
}
