//! Packs: opened, read entry by entry and written on both sides.

pub mod breaches;
pub mod call;
pub mod largest;
pub mod plan;
pub mod run;
pub mod sides;
pub mod table;
pub mod tiles;
