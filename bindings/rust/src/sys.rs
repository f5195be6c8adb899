//! The functions of the archive, as include/yalivucu.h declares them. A slice goes over as its
//! pointer and its length.

pub type Picture = unsafe extern "C" fn(*const u8, usize, usize, usize, usize, *mut u32, usize) -> u32;
pub type Whole<T> = unsafe extern "C" fn(*const u8, usize, usize, usize, usize, *mut T, usize) -> u32;
pub type Guarded = unsafe extern "C" fn(*const u8, usize, usize, usize, usize, *mut u32, usize, *mut usize) -> u32;
pub type Check = unsafe extern "C" fn(*const u8, usize, usize, usize, *mut usize) -> u32;
pub type Start = unsafe extern "C" fn(usize, usize, usize, *const u32, usize, *mut [usize; 5], *mut [u8; 15]) -> u32;
pub type Block = unsafe extern "C" fn(*const u8, usize, *mut u32, usize) -> u32;
pub type Channel = unsafe extern "C" fn(*const u8, usize, usize, *mut u32, usize) -> u32;

/// `struct yalivucu_file`.
#[repr(C)]
#[derive(Default)]
pub struct File {
    pub container: u64,
    pub format: u64,
    pub srgb: u64,
    pub width: u64,
    pub height: u64,
    pub levels: u64,
    pub big_endian: u64,
    pub orientation: u64,
    pub left_over: u64,
}

/// `struct yalivucu_level_place`.
#[repr(C)]
#[derive(Default)]
pub struct Level {
    pub width: u64,
    pub height: u64,
    pub start: u64,
    pub length: u64,
}

macro_rules! declared {
    ($($name:ident)*) => {$(
        pub fn $name(data: *const u8, data_len: usize, width: usize, height: usize, pitch: usize, image: *mut u32, image_len: usize) -> u32;
    )*};
}
macro_rules! declared_whole {
    ($($name:ident: $number:ty,)*) => {$(
        pub fn $name(data: *const u8, data_len: usize, width: usize, height: usize, pitch: usize, image: *mut $number, image_len: usize) -> u32;
    )*};
}
macro_rules! declared_check {
    ($($name:ident)*) => {$(
        pub fn $name(data: *const u8, data_len: usize, width: usize, height: usize, block: *mut usize) -> u32;
    )*};
}
macro_rules! declared_block {
    ($($name:ident)*) => {$(
        pub fn $name(data: *const u8, data_len: usize, out: *mut u32, out_len: usize) -> u32;
    )*};
}
macro_rules! declared_channel {
    ($($name:ident)*) => {$(
        pub fn $name(data: *const u8, data_len: usize, channel: usize, out: *mut u32, out_len: usize) -> u32;
    )*};
}
macro_rules! declared_start {
    ($($name:ident)*) => {$(
        pub fn $name(width: usize, height: usize, pitch: usize, image: *const u32, image_len: usize, numbers: *mut [usize; 5], kept: *mut [u8; 15]) -> u32;
    )*};
}
macro_rules! declared_census {
    ($($name:ident)*) => {$(
        pub fn $name(data: *const u8, data_len: usize, width: usize, height: usize, counts: *mut usize, counts_len: usize) -> u32;
    )*};
}

extern "C" {
    declared! {
        yalivucu_decode_etc1_pitched
        yalivucu_decode_etc2_rgb_pitched
        yalivucu_decode_etc2_rgba1_pitched
        yalivucu_decode_etc2_rgba8_pitched
        yalivucu_decode_eacr_pitched
        yalivucu_decode_eacr_signed_pitched
        yalivucu_decode_eacrg_pitched
        yalivucu_decode_eacrg_signed_pitched
        yalivucu_decode_bc1_pitched
        yalivucu_decode_bc1a_pitched
        yalivucu_decode_bc3_pitched
        yalivucu_decode_bc7_pitched
        yalivucu_decode_bc2_pitched
        yalivucu_decode_bc4_pitched
        yalivucu_decode_bc4_signed_pitched
        yalivucu_decode_bc5_pitched
        yalivucu_decode_bc5_signed_pitched
    }
    declared_whole! {
        yalivucu_decode_eacr11_pitched: u16,
        yalivucu_decode_eacr11_signed_pitched: i16,
        yalivucu_decode_eacrg11_pitched: u16,
        yalivucu_decode_eacrg11_signed_pitched: i16,
    }
    declared_check! {
        yalivucu_check_strict
        yalivucu_check_opaque
    }
    declared_block! {
        yalivucu_decode_etc1_block
        yalivucu_decode_etc2_rgb_block
        yalivucu_decode_etc2_rgba1_block
        yalivucu_decode_etc2_rgba8_block
        yalivucu_decode_eacr_block
        yalivucu_decode_eacr_signed_block
        yalivucu_decode_eacrg_block
        yalivucu_decode_eacrg_signed_block
        yalivucu_decode_bc1_block
        yalivucu_decode_bc1a_block
        yalivucu_decode_bc3_block
        yalivucu_decode_bc7_block
        yalivucu_decode_bc2_block
        yalivucu_decode_bc4_block
        yalivucu_decode_bc4_signed_block
        yalivucu_decode_bc5_block
        yalivucu_decode_bc5_signed_block
        yalivucu_decode_etc2_a8_block
    }
    declared_channel! {
        yalivucu_decode_eac_block
        yalivucu_decode_eac_signed_block
        yalivucu_decode_bc3_alpha
    }
    declared_start! {
        yalivucu_start_etc1
        yalivucu_start_etc2_rgb
        yalivucu_start_etc2_rgba1
        yalivucu_start_etc2_rgba8
        yalivucu_start_eacr
        yalivucu_start_eacr_signed
        yalivucu_start_eacrg
        yalivucu_start_eacrg_signed
        yalivucu_start_bc1
        yalivucu_start_bc1a
        yalivucu_start_bc3
        yalivucu_start_bc7
        yalivucu_start_bc2
        yalivucu_start_bc4
        yalivucu_start_bc4_signed
        yalivucu_start_bc5
        yalivucu_start_bc5_signed
    }
    declared_census! {
        yalivucu_census_etc2_rgb
        yalivucu_census_etc2_rgba1
        yalivucu_older_etc1
        yalivucu_older_rgb
    }
    pub fn yalivucu_decode_etc1_strict_pitched(
        data: *const u8,
        data_len: usize,
        width: usize,
        height: usize,
        pitch: usize,
        image: *mut u32,
        image_len: usize,
        block: *mut usize,
    ) -> u32;
    pub fn yalivucu_decode_etc2_rgba1_opaque_pitched(
        data: *const u8,
        data_len: usize,
        width: usize,
        height: usize,
        pitch: usize,
        image: *mut u32,
        image_len: usize,
        block: *mut usize,
    ) -> u32;
    pub fn yalivucu_open_file(data: *const u8, data_len: usize, file: *mut File) -> u32;
    pub fn yalivucu_file_level(data: *const u8, data_len: usize, level: usize, out: *mut Level) -> u32;
    pub fn yalivucu_sheet_head(
        sheet: *const u8,
        sheet_len: usize,
        format: *mut usize,
        width: *mut usize,
        height: *mut usize,
    ) -> u32;
    pub fn yalivucu_read_sheet(sheet: *const u8, sheet_len: usize, image: *mut u32, image_len: usize) -> u32;
    pub fn yalivucu_write_sheet(
        format: usize,
        width: usize,
        height: usize,
        blocks: *const u8,
        blocks_len: usize,
        room: *mut u8,
        room_len: usize,
        written: *mut usize,
    ) -> u32;
    pub fn yalivucu_check_etc1_block(
        block: *const u8,
        block_len: usize,
        tile: *const u32,
        tile_len: usize,
        tolerance: u32,
    ) -> u32;
    pub fn yalivucu_bake_etc1_block(
        first: *const [u8; 3],
        second: *const [u8; 3],
        flip: usize,
        tile: *const u32,
        tile_len: usize,
        block: *mut u8,
        block_len: usize,
    ) -> u32;
    pub fn yalivucu_take_piece(
        numbers: *mut [usize; 5],
        kept: *mut [u8; 15],
        bytes: *const u8,
        bytes_len: usize,
        image: *mut u32,
        image_len: usize,
        painted: *mut usize,
        unused: *mut usize,
    ) -> u32;
    pub fn yalivucu_end_pieces(numbers: *const [usize; 5], kept: *const [u8; 15]) -> u32;
    pub fn yalivucu_read_degrees(
        kind: usize,
        low: f32,
        step: f32,
        second: f32,
        legend_digit: usize,
        picture_digit: usize,
        pixel: u32,
        measured: f32,
        predicted: *mut f32,
        seen: *mut f32,
        difference: *mut f32,
    ) -> u32;
}
