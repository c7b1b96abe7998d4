//! Times of whole calls: the kernel in libmlca.a beside the oracle, best of three. The kernel's calls go through the comparison's fenced
//! buffers, whose mapping and copying count against it.

#[cfg(not(mlca_linked))]
fn main() {
    eprintln!("not run: this was built without MLCA_LIB_DIR, the folder of libmlca.a");
    std::process::exit(2);
}

#[cfg(mlca_linked)]
fn main() {
    use oracle::checks::check_refining;
    use oracle::entries::{Kernel, Lent, Oracle};
    use oracle::generate::{lattice, shapes};

    let rows = [
        ("grid of 30,720 hexes", lattice::blocks([30, 32, 32], || true), 1),
        ("grid of 3,840 hexes", lattice::blocks([15, 16, 16], || true), 2),
        ("grid of 60 hexes", lattice::blocks([3, 4, 5], || true), 4),
        ("125,000 segments from a vertex", shapes::star_of_segments(125_000), 1),
        ("31,250 hexes on a face", shapes::blocks_round_a_face(31_250), 1),
    ];
    println!(
        "{:<34} {:>6} {:>10} {:>10} {:>6}",
        "best of three whole calls", "rounds", "oracle ms", "kernel ms", "ratio"
    );
    for (name, mesh, rounds) in rows {
        let finished = check_refining(&mesh, rounds).expect("within the limits");
        let best = |kernel: &dyn Kernel| {
            let call = || {
                let mut lent = Lent::exactly(finished);
                let start = std::time::Instant::now();
                let answer = kernel.refine(&mesh, rounds, &mut lent);
                (start.elapsed().as_secs_f64() * 1e3, answer, lent.output)
            };
            (0..3).map(|_| call()).min_by(|a, b| a.0.total_cmp(&b.0)).expect("three calls")
        };
        let (oracle, kernel) = (best(&Oracle), best(&oracle::ffi::Archive));
        assert!(oracle.1 == kernel.1 && oracle.2 == kernel.2, "{name}: the two differ");
        println!("{name:<34} {rounds:>6} {:>10.1} {:>10.1} {:>6.2}", oracle.0, kernel.0, kernel.0 / oracle.0);
    }
}
