//! The roots of the crate's ETC part and of BC1, BC3 and BC7, in place of its own lib.rs and bcn.rs: those
//! name files of families that are no concern here. The modules are the unchanged files.
#![allow(dead_code, unused_imports, unused_macros, clippy::all)]

mod bitreader;
mod color;
mod etc;
mod macros;

mod bcn {
    pub(crate) mod bc1;
    pub(crate) mod bc3;
    pub(crate) mod bc7;
    pub(crate) mod consts;

    use crate::macros::block_decoder;
    pub use bc1::{decode_bc1_block, decode_bc1a_block};
    pub use bc3::{decode_bc3_alpha, decode_bc3_block};
    pub use bc7::decode_bc7_block;

    block_decoder!("bc1", 4, 4, 8, decode_bc1_block);
    block_decoder!("bc1a", 4, 4, 8, decode_bc1a_block);
    block_decoder!("bc3", 4, 4, 16, decode_bc3_block);
    block_decoder!("bc7", 4, 4, 16, decode_bc7_block);
}

pub use bcn::*;
pub use etc::*;
