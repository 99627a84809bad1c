//! Evidence from outside the proofs: document 01 written a second time, and the proved library held to it.

pub mod calls;
pub mod cases;
pub mod compare;
pub mod dayfile;
pub mod entries;
pub mod fast;
pub mod header;
pub mod layout;
pub mod library;
pub mod names;
pub mod paper;
pub mod random;
pub mod reference;
pub mod replies;
pub mod sample;
pub mod told;
pub mod worst;
