//! Holds the kernel in libmlca.a against the oracle. The last line is `N passed, M failed`.
//! MLCA_SCALE multiplies the number of cases; MLCA_TRACE, set to anything, names each call before it is made;
//! arguments choose groups by a part of their names.

#[cfg(not(mlca_linked))]
fn main() {
    eprintln!("not run: this was built without MLCA_LIB_DIR, the folder of libmlca.a");
    println!("0 passed, 0 failed");
    std::process::exit(2);
}

#[cfg(mlca_linked)]
fn main() {
    use oracle::compare::{Comparison, GROUPS};
    let scale = std::env::var("MLCA_SCALE").map_or(1, |text| text.parse().expect("MLCA_SCALE is a whole number"));
    let chosen: Vec<String> = std::env::args().skip(1).collect();
    let mut comparison = Comparison::new(&oracle::ffi::Archive, scale);
    comparison.trace = std::env::var_os("MLCA_TRACE").is_some();
    for (name, run) in GROUPS {
        if !chosen.is_empty() && !chosen.iter().any(|part| name.contains(part.as_str())) {
            continue;
        }
        let (start, before) = (std::time::Instant::now(), comparison.tally.passed + comparison.tally.failed);
        run(&mut comparison);
        let cases = comparison.tally.passed + comparison.tally.failed - before;
        println!("{name}: {cases} cases, {:.1} s", start.elapsed().as_secs_f64());
    }
    println!("{}", comparison.tally.refusal_line());
    println!("{} passed, {} failed", comparison.tally.passed, comparison.tally.failed);
    std::process::exit(i32::from(comparison.tally.failed > 0));
}
