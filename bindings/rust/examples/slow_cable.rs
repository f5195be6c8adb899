//! Reads bare blocks from standard input while they arrive, and says what has been painted after each
//! piece: slow_cable WIDTH HEIGHT, with ETC2 RGBA8 blocks.
use std::error::Error;
use std::io::{self, Read};
use yalivucu::typed::{Format, Picture, Pieces};

/// Reads a picture from whatever gives bytes, in pieces as they come, and tells how many blocks are painted.
fn read_from(
    source: &mut impl Read,
    format: Format,
    picture: Picture,
    image: &mut [u32],
    mut told: impl FnMut(usize),
) -> Result<(), Box<dyn Error>> {
    let mut pieces = Pieces::start(format, picture, image)?;
    let mut buffer = [0; 4096];
    let mut painted = 0;
    loop {
        let n = source.read(&mut buffer)?;
        if n == 0 {
            return Ok(pieces.end()?);
        }
        let taken = pieces.take(&buffer[..n], image)?;
        painted += taken.painted;
        told(painted);
        if taken.unused > 0 {
            return Ok(pieces.end()?);
        }
    }
}

fn main() -> Result<(), Box<dyn Error>> {
    let sides: Vec<usize> = std::env::args()
        .skip(1)
        .map(|word| word.parse())
        .collect::<Result<_, _>>()?;
    let [width, height] = sides[..] else {
        return Err("slow_cable WIDTH HEIGHT < BLOCKS".into());
    };
    let picture = Picture::new(width, height);
    let mut image = vec![0; picture.elements().ok_or("too large")?];
    let told = |painted| println!("{painted} blocks are painted");
    read_from(&mut io::stdin(), Format::Etc2Rgba8, picture, &mut image, told)?;
    println!("done; the first pixel is {:08x}", image.first().unwrap_or(&0));
    Ok(())
}
