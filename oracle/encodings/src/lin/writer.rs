//! Stand-in for the original `lin/writer.rs`, which could not be had. Nothing
//! here writes LIN; `lin/mod.rs` only names the two functions.

use super::LinData;

pub fn write_lin(_: &LinData) -> String {
    unimplemented!("LIN is read only")
}

pub fn write_lin_file(_: &[LinData]) -> String {
    unimplemented!("LIN is read only")
}
