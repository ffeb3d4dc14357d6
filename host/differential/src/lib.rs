//! The originals, the port and a plain model, each as one side that takes the same calls over the same listing; and what
//! the programs beside this one share.

pub mod edge;
pub mod listing;
pub mod lists;
pub mod model;
pub mod monty_fs;
pub mod port;
pub mod random;
pub mod side;
pub mod words;
pub mod world;

pub use cap_std::fs::{Links, Manner};
