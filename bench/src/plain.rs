//! BC2, BC4 and BC5 by the library's rules, written plainly after the crate's bc2.rs and bc3.rs: one block into a buffer of sixteen, and the
//! buffer into the image. The crate's own bc2.rs goes by the order of the colours, and its bc4.rs and bc5.rs are not at hand.

pub fn decode_bc2(data: &[u8], width: usize, height: usize, image: &mut [u32]) -> Result<(), &'static str> {
    picture(data, width, height, 16, image, |d, out| {
        colours(&d[8..], out);
        for (i, pixel) in out.iter_mut().enumerate() {
            let alpha = (d[i / 2] >> (4 * (i % 2)) & 15) as u32 * 17;
            *pixel = *pixel & 0xff_ffff | alpha << 24;
        }
    })
}

pub fn decode_bc4(data: &[u8], width: usize, height: usize, image: &mut [u32]) -> Result<(), &'static str> {
    picture(data, width, height, 8, image, |d, out| {
        red(d, out, |b| b as i32, [0, 255])
    })
}

pub fn decode_bc4_signed(data: &[u8], width: usize, height: usize, image: &mut [u32]) -> Result<(), &'static str> {
    picture(data, width, height, 8, image, |d, out| red(d, out, signed, [0, 254]))
}

pub fn decode_bc5(data: &[u8], width: usize, height: usize, image: &mut [u32]) -> Result<(), &'static str> {
    picture(data, width, height, 16, image, |d, out| {
        red(d, out, |b| b as i32, [0, 255]);
        values(&d[8..], out, 8, |b| b as i32, [0, 255]);
    })
}

pub fn decode_bc5_signed(data: &[u8], width: usize, height: usize, image: &mut [u32]) -> Result<(), &'static str> {
    picture(data, width, height, 16, image, |d, out| {
        red(d, out, signed, [0, 254]);
        values(&d[8..], out, 8, signed, [0, 254]);
    })
}

fn picture(
    data: &[u8],
    width: usize,
    height: usize,
    size: usize,
    image: &mut [u32],
    block: impl Fn(&[u8], &mut [u32; 16]),
) -> Result<(), &'static str> {
    let mut out = [0; 16];
    for (n, d) in data.chunks_exact(size).enumerate() {
        let (x, y) = (n % width.div_ceil(4) * 4, n / width.div_ceil(4) * 4);
        block(d, &mut out);
        for row in 0..4.min(height - y) {
            let (at, n) = ((y + row) * width + x, 4.min(width - x));
            image[at..at + n].copy_from_slice(&out[4 * row..4 * row + n]);
        }
    }
    Ok(())
}

fn signed(b: u8) -> i32 {
    (b as i8).max(-127) as i32 + 127
}

fn red(d: &[u8], out: &mut [u32; 16], value: impl Fn(u8) -> i32, ends: [i32; 2]) {
    out.fill(0xff00_0000);
    values(d, out, 16, value, ends);
}

fn values(d: &[u8], out: &mut [u32; 16], shift: u32, value: impl Fn(u8) -> i32, ends: [i32; 2]) {
    let (a, b) = (value(d[0]), value(d[1]));
    let mut eight = [a, b, 0, 0, 0, 0, ends[0], ends[1]];
    if a > b {
        (1..7).for_each(|i| eight[i as usize + 1] = ((7 - i) * a + i * b) / 7);
    } else {
        (1..5).for_each(|i| eight[i as usize + 1] = ((5 - i) * a + i * b) / 5);
    }
    let mut bits = u64::from_le_bytes(d[..8].try_into().unwrap()) >> 16;
    for pixel in out {
        *pixel |= (eight[bits as usize & 7] as u32) << shift;
        bits >>= 3;
    }
}

fn colours(d: &[u8], out: &mut [u32; 16]) {
    let wide = |q: u32| {
        let (r, g, b) = (q >> 11, q >> 5 & 63, q & 31);
        [r << 3 | r >> 2, g << 2 | g >> 4, b << 3 | b >> 2]
    };
    let a = wide(u16::from_le_bytes([d[0], d[1]]) as u32);
    let b = wide(u16::from_le_bytes([d[2], d[3]]) as u32);
    let mixed = |m: u32, n: u32| {
        let of = |k: usize| (m * a[k] + n * b[k]) / 3;
        of(0) << 16 | of(1) << 8 | of(2)
    };
    let four = [mixed(3, 0), mixed(0, 3), mixed(2, 1), mixed(1, 2)];
    let mut bits = u32::from_le_bytes(d[4..8].try_into().unwrap());
    for pixel in out {
        *pixel = four[bits as usize & 3];
        bits >>= 2;
    }
}
