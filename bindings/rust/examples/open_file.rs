//! Opens a texture file and paints its largest level: open_file FILE
use yalivucu::typed::File;

fn main() -> Result<(), Box<dyn std::error::Error>> {
    let bytes = std::fs::read(std::env::args().nth(1).ok_or("open_file FILE")?)?;
    let file = File::open(&bytes)?;
    let level = file.level(0)?;
    let mut image = vec![0; level.width() * level.height()];
    level.read(&mut image)?;
    println!("{}, {:?}: {:x?}", file.container(), file.format(), image.first());
    Ok(())
}
