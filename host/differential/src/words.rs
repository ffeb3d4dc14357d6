//! The words that the programs take on their command line.

use std::env;

pub struct Words(Vec<String>);

impl Words {
    pub fn given() -> Self {
        Self(env::args().skip(1).collect())
    }

    pub fn first(&self) -> Option<&str> {
        self.0.first().map(String::as_str)
    }

    pub fn after(&self, name: &str) -> Option<&str> {
        let at = self.0.iter().position(|word| word == name)?;
        self.0.get(at + 1).map(String::as_str)
    }

    /// Whether `--long` asks for the long run.
    pub fn long(&self) -> bool {
        self.0.iter().any(|word| word == "--long")
    }

    /// The number behind `--seed`, else 1.
    pub fn seed(&self) -> u64 {
        self.after("--seed").map_or(1, |seed| seed.parse().expect("a number behind --seed"))
    }
}
