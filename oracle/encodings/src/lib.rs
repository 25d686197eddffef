//! The original Rust of the PBN reader, compiled unchanged from the folder
//! that build.rs finds. It is the judge of behaviour.

#![allow(clippy::all)]
#![allow(rustdoc::all)]

include!(concat!(env!("OUT_DIR"), "/modules.rs"));
