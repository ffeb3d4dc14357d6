//! Puts the same calls to the original, the port and the model, and prints in a table what was compared.
//! `--long` does more of the same; `--seed N` moves the random lists; a first word picks one part alone: `cases`,
//! `runs`, `manners`. `sample` prints what stands in sample.txt, and `sample --binary FILE` writes what stands in
//! sample.bin.

mod cases;
mod manners;
mod runs;
mod sample;

use std::{fs, process::ExitCode};

use differential::{monty_fs::entry_size, words::Words};

fn main() -> ExitCode {
    let words = Words::given();
    let (long, seed) = (words.long(), words.seed());
    let part = words.first().filter(|word| !word.starts_with("--")).unwrap_or("all");

    if part == "sample" {
        let lists = sample::lists();
        match words.after("--binary") {
            Some(file) => fs::write(file, sample::binary(&lists)).expect("a file that can be written"),
            None => print!("{}", sample::text(&lists)),
        }
        return ExitCode::SUCCESS;
    }
    println!("entry size of the original: {} bytes", entry_size());
    let mut faults = 0;
    if matches!(part, "all" | "cases") {
        faults += cases::run();
    }
    if matches!(part, "all" | "runs") {
        faults += runs::run(long, seed);
    }
    if matches!(part, "all" | "manners") {
        faults += manners::run(long, seed);
    }
    println!("{}", if faults == 0 { "no difference" } else { "DIFFERENCES FOUND" });
    ExitCode::from(u8::from(faults != 0))
}
