//! The ten source files, unchanged but for the word `pub` (see `../build`), over our own `bytes` and `error`.

#[path = "../target/rust/crc.rs"]
pub mod crc;
#[path = "../target/rust/device.rs"]
pub mod device;
#[path = "../target/rust/format.rs"]
pub mod format;
#[path = "../target/rust/geometry.rs"]
pub mod geometry;
#[path = "../target/rust/structs/mod.rs"]
pub mod structs;

pub mod bytes;
pub mod error;
#[cfg(feature = "bench")]
pub mod ours;
