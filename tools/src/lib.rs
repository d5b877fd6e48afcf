//! What the player and the picture share. What is accepted, and what it does, the proved library says; the words and
//! the drawing are not proved.

pub mod input;
pub mod picture;
pub mod play;
