//! docs/CREASES.md and its picture are what the program makes, and no document gives a volume that is not in the table.

use oracle::castings::volume_table;
use oracle::picture::picture;
use std::path::Path;

fn document(path: &str) -> String {
    std::fs::read_to_string(Path::new(env!("CARGO_MANIFEST_DIR")).join("../..").join(path)).expect(path)
}

/// The numbers with a decimal in a text, such as 24.0.
fn decimals(text: &str) -> Vec<&str> {
    let is_decimal = |word: &&str| {
        let parts: Vec<&str> = word.split('.').collect();
        parts.len() == 2 && parts.iter().all(|part| !part.is_empty() && part.bytes().all(|byte| byte.is_ascii_digit()))
    };
    let words = text.split(|c: char| !c.is_ascii_digit() && c != '.');
    words.map(|word| word.trim_matches('.')).filter(is_decimal).collect()
}

fn assert_all_in_table(path: &str, text: &str) {
    let table = volume_table();
    let known = decimals(&table);
    decimals(text).iter().for_each(|number| assert!(known.contains(number), "{path}: {number} is not in the table"));
}

#[test]
fn the_table_is_up_to_date() {
    let page = document("docs/CREASES.md");
    assert!(
        page.contains(&format!("\n\n{}\n", volume_table())),
        "docs/CREASES.md needs this table:\n{}",
        volume_table()
    );
}

#[test]
fn the_picture_is_up_to_date() {
    assert!(document("docs/creases.svg") == picture(), "docs/creases.svg is not what the program writes");
}

#[test]
fn the_page_gives_only_numbers_of_the_table() {
    assert_all_in_table("docs/CREASES.md", &document("docs/CREASES.md"));
}

/// In the other documents, each line that speaks of cubic centimetres.
#[test]
fn other_documents_give_only_volumes_of_the_table() {
    for path in ["README.md", "examples/README.md", "examples/meshes/README.md"] {
        let text = document(path);
        let lines = text.lines().filter(|line| line.contains("cm3"));
        lines.for_each(|line| assert_all_in_table(path, line));
    }
}

#[test]
fn decimals_are_found_between_other_signs() {
    assert_eq!(decimals("from 24.0 to 6.9 cm3. 7. and 3 or 1.2.3 (28.9 %)."), ["24.0", "6.9", "28.9"]);
}
