//! Compares the proved reader with the plain one, call by call.
//!
//! Each call is made on both sides with the same slices; answer, number, place
//! and every lent byte afterwards must be the same, and marks on both sides of
//! each slice must stand.

pub mod arithmetic;
pub mod block_paths;
pub mod case;
pub mod checksum;
pub mod codes;
pub mod counted;
pub mod damage;
#[cfg(feature = "esri")]
pub mod esri;
pub mod folder;
pub mod form;
pub mod huffman;
mod lent;
pub mod operands;
pub mod packs;
pub mod paths;
pub mod places;
pub mod plan;
pub mod publishes;
mod publishing;
pub mod random;
pub mod run;
pub mod shrink;
pub mod sides;
mod sites;
pub mod sorts;
pub mod step;
pub mod store;
pub mod sums;
pub mod table;
