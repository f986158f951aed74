//! Calls of the library's C interface, random calls and halls, and the
//! comparison with the second implementation. `main.rs` runs the tests.

pub mod actions;
pub mod bench;
pub mod counts;
pub mod courses;
pub mod damage;
pub mod decisions;
pub mod events;
pub mod files;
pub mod flaws;
pub mod halls;
pub mod library;
pub mod listings;
pub mod margins;
pub mod offsets;
pub mod openings;
pub mod pair;
pub mod random;
pub mod rows;
pub mod runs;
pub mod settles;
pub mod stepbacks;
pub mod vectors;
