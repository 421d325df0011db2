//! The symbologies, under their names in the crate barcoders.

pub mod code128;
pub mod ean13;
