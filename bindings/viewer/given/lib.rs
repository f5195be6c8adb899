//! The roots of the crate's ETC part and of BC1, BC2, BC3 and BC7, in place of its own lib.rs and bcn.rs: those
//! name files of families that are no concern here. The modules are the unchanged files.
#![allow(dead_code, unused_imports, unused_macros, clippy::all)]

mod bitreader;
mod color;
mod etc;
mod macros;

mod bcn {
    pub(crate) mod bc1;
    pub(crate) mod bc2;
    pub(crate) mod bc3;
    pub(crate) mod bc7;
    pub(crate) mod consts;

    use crate::macros::block_decoder;
    pub use bc1::{decode_bc1_block, decode_bc1a_block};
    pub use bc2::decode_bc2_block;
    pub use bc3::{decode_bc3_alpha, decode_bc3_block};
    pub use bc7::decode_bc7_block;

    /// The crate's bc4.rs and bc5.rs are not at hand: its alpha half of BC3, put into red and green, is the same rule.
    pub fn decode_bc4_block(data: &[u8], outbuf: &mut [u32]) {
        outbuf[..16].fill(0xff00_0000);
        decode_bc3_alpha(data, &mut outbuf[..16], 2);
    }

    pub fn decode_bc5_block(data: &[u8], outbuf: &mut [u32]) {
        decode_bc4_block(data, outbuf);
        decode_bc3_alpha(&data[8..], &mut outbuf[..16], 1);
    }

    block_decoder!("bc1", 4, 4, 8, decode_bc1_block);
    block_decoder!("bc1a", 4, 4, 8, decode_bc1a_block);
    block_decoder!("bc2", 4, 4, 16, decode_bc2_block);
    block_decoder!("bc3", 4, 4, 16, decode_bc3_block);
    block_decoder!("bc4", 4, 4, 8, decode_bc4_block);
    block_decoder!("bc5", 4, 4, 16, decode_bc5_block);
    block_decoder!("bc7", 4, 4, 16, decode_bc7_block);
}

pub use bcn::*;
pub use etc::*;
