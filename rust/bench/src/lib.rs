//! What the library is timed against: the same jobs in plain Rust, and the label program written
//! with the crate barcoders. Also the inputs.
pub mod filter;
pub mod inputs;
pub mod patterns;
pub mod plain;
pub mod plain_ean13;
