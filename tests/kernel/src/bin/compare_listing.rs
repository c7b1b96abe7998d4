//! Holds a listing program, given as argument, against the oracle's text. The last line is `N passed, M failed`.

use oracle::compare::listing::compare_listing;

fn main() {
    let program = std::env::args().nth(1).expect("the listing program to run");
    let scale = std::env::var("MLCA_SCALE").map_or(1, |text| text.parse().expect("MLCA_SCALE is a whole number"));
    let tally = compare_listing(&program, scale);
    println!("{}", tally.refusal_line());
    println!("{} passed, {} failed", tally.passed, tally.failed);
    std::process::exit(i32::from(tally.failed > 0));
}
