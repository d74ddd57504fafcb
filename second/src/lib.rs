//! A plain second implementation of the yard program.
//!
//! It is written for reading beside the rules, not for speed: sets are lists
//! of controller numbers, cores are found by trying every group, the rounds
//! follow their definitions word by word, and the text is split and parsed.
//! It shares no code with the proved program; the two are compared byte by
//! byte by the binary `compare`.

pub mod controller;
pub mod duty;
pub mod form;
pub mod refusal;
pub mod rounds;
pub mod sets;
pub mod trial;
pub mod yard;
