//! Android's libETC1 on the same ETC1 picture, where bench/run found it.

#[cfg(not(android))]
pub fn print(_side: usize, _turns: usize, _data: &[u8]) {}

#[cfg(android)]
extern "C" {
    fn etc1_decode_image(data: *const u8, out: *mut u8, width: u32, height: u32, pixel: u32, stride: u32) -> i32;
}

/// One row. It writes three bytes a pixel, where the others write four.
#[cfg(android)]
pub fn print(side: usize, turns: usize, data: &[u8]) {
    let mut out = vec![0u8; side * side * 3];
    let taken = (0..turns).map(|_| {
        out.fill(0);
        let began = crate::clock::seconds();
        // SAFETY: the lengths are those of a picture of this side.
        let done = unsafe {
            etc1_decode_image(
                data.as_ptr(),
                out.as_mut_ptr(),
                side as u32,
                side as u32,
                3,
                side as u32 * 3,
            )
        };
        assert_eq!(done, 0);
        std::hint::black_box(&out);
        crate::clock::seconds() - began
    });
    let taken = crate::median(taken.collect());
    println!("| ETC1, Android's libETC1 | | {:.2} | | | |", taken * 1e3);
}
