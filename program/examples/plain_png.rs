//! What `bench/program` measures the program against: level 0 of a file, decoded whole on one thread and written by the png
//! crate at its fastest setting. Prints the seconds of both.
use std::error::Error;
use std::fs::{self, File};
use std::io::BufWriter;
use std::time::Instant;

fn main() -> Result<(), Box<dyn Error>> {
    let names: Vec<String> = std::env::args().skip(1).collect();
    let [file, out] = names.as_slice() else {
        return Err("plain_png FILE OUT.png".into());
    };
    let bytes = fs::read(file)?;
    let begin = Instant::now();
    let level = yalivucu::typed::File::open(&bytes)?.level(0)?;
    let mut image = vec![0; level.width() * level.height()];
    level.read(&mut image)?;
    let decoded = begin.elapsed();
    let turned = |pixel: &u32| pixel.rotate_left(8).to_be_bytes();
    let samples: Vec<u8> = image.iter().flat_map(turned).collect();
    let begin = Instant::now();
    let mut encoder =
        png::Encoder::new(BufWriter::new(File::create(out)?), level.width() as u32, level.height() as u32);
    encoder.set_color(png::ColorType::Rgba);
    encoder.set_compression(png::Compression::Fast);
    let mut writer = encoder.write_header()?;
    writer.write_image_data(&samples)?;
    writer.finish()?;
    println!("{} {}", decoded.as_secs_f64(), begin.elapsed().as_secs_f64());
    Ok(())
}
