//! The crate's readers under C names, for tools/instructions; of BC2, BC4 and BC5 plain ones of the same rules.
extern crate given;

#[path = "../bench/src/plain.rs"]
mod plain;

macro_rules! names {
    ($($name:ident = $called:path;)*) => {$(
        /// # Safety
        ///
        /// The pointers and lengths are those of two slices that live through the call.
        #[no_mangle]
        pub unsafe extern "C" fn $name(
            data: *const u8,
            bytes: usize,
            width: usize,
            height: usize,
            image: *mut u32,
            elements: usize,
        ) -> u32 {
            let data = std::slice::from_raw_parts(data, bytes);
            let image = std::slice::from_raw_parts_mut(image, elements);
            $called(data, width, height, image).is_err() as u32
        }
    )*};
}

names! {
    given_decode_etc1 = given::decode_etc1;
    given_decode_etc2_rgb = given::decode_etc2_rgb;
    given_decode_etc2_rgba1 = given::decode_etc2_rgba1;
    given_decode_etc2_rgba8 = given::decode_etc2_rgba8;
    given_decode_eacr = given::decode_eacr;
    given_decode_eacr_signed = given::decode_eacr_signed;
    given_decode_eacrg = given::decode_eacrg;
    given_decode_eacrg_signed = given::decode_eacrg_signed;
    given_decode_bc1 = given::decode_bc1;
    given_decode_bc1a = given::decode_bc1a;
    given_decode_bc3 = given::decode_bc3;
    given_decode_bc7 = given::decode_bc7;
    given_decode_bc2 = plain::decode_bc2;
    given_decode_bc4 = plain::decode_bc4;
    given_decode_bc4_signed = plain::decode_bc4_signed;
    given_decode_bc5 = plain::decode_bc5;
    given_decode_bc5_signed = plain::decode_bc5_signed;
}
