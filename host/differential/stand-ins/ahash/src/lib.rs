//! Stands for the crate `ahash`: its hash set. Assumes that only membership is asked of it, never its order.

pub use std::collections::HashSet as AHashSet;
