//! What creases do to the shipped castings: prints the table of docs/CREASES.md, and writes its picture, creases.svg, into
//! the folder given as argument.

use oracle::castings::volume_table;
use oracle::picture::picture;
use std::path::PathBuf;

fn main() -> std::io::Result<()> {
    let folder = PathBuf::from(std::env::args().nth(1).expect("the folder to write into"));
    print!("{}", volume_table());
    std::fs::write(folder.join("creases.svg"), picture())
}
