//! What the judge, the clock and the tool make up: random numbers that a seed replays, and pictures.

mod picture;
mod rng;

pub use picture::{strengths, texture, Content, Texture};
pub use rng::Rng;
