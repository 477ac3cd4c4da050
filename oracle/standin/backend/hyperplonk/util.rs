//! The oracle's own code. hyperplonk.rs declares `pub mod util` under feature
//! "benchmark" and its file is not among those given, so ours stands here: as a
//! child of `hyperplonk` it may call every `pub(super)` and `pub(crate)` item.
//! The modules are the files of oracle/src.
mod bench;
mod calls;
mod cases;
mod differences;
mod examples;
mod expressions;
mod generate;
mod given;
mod laps;
mod library;
mod limits;
mod model;
mod modes;
mod prove;
mod questions;
mod refuse;
mod sections;
mod stored;

pub fn main() {
    modes::main()
}
