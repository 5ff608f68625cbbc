//! The operations of 01 and 02 in unproved Rust that works by whole bytes on row slices. They do the
//! work of the public functions: the same lent buffers, refusals, counts, and cleared work.

mod decode;
mod encode;
mod frame;
mod minimise;
mod planes;
mod skeleton;
mod thin;

pub use decode::decode;
pub use encode::{encode, Coded};
pub use frame::area;
pub use minimise::minimise;
pub use planes::{dilate_plane, erode_plane};
pub use skeleton::{decompose, erode, open, reconstruct, Skeleton};
pub use thin::{thin, Thinned, GOLAY_L};

#[cfg(test)]
mod tests;
