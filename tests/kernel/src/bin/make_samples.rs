//! Writes the stored sample meshes and their page into the folder given as argument.

use oracle::catalogue::{catalogue, page};
use oracle::stored::encode;
use std::path::PathBuf;

fn main() -> std::io::Result<()> {
    let folder = PathBuf::from(std::env::args().nth(1).expect("the folder to write into"));
    std::fs::create_dir_all(&folder)?;
    for sample in catalogue() {
        std::fs::write(folder.join(format!("{}.mlca", sample.name)), encode(&sample.mesh))?;
    }
    std::fs::write(folder.join("README.md"), page())
}
