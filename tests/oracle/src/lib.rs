//! What the benchmark shares with the oracle: files drawn at random and damaged, the litmus table, and what those stand on.
//! What judges is the program's alone (main.rs), but for loading and translating, by which files are drawn.

pub mod damage;
pub mod draft;
pub mod generate;
mod generate_buffers;
mod generate_circles;
mod generate_links;
mod generate_rings;
mod generate_syncs;
#[path = "../../shared/hex.rs"]
pub mod hex;
pub mod litmus;
pub mod random;
pub mod recording;
pub mod relation;
pub mod samples;
mod shaped;
pub mod translation;
