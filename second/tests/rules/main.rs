//! The reader against the rules. Blobs from elsewhere are read from the folder
//! that LERC2_VECTORS names; without it those tests are skipped.

mod arithmetic;
mod blob;
mod bodies;
mod by_value;
mod checksum;
mod given;
mod huffman;
mod inflate;
mod lent;
mod pack;
mod places;
mod program;
mod proved_cases;
mod random;
mod random_blobs;
mod refusals;
mod stage;
mod vectors;
