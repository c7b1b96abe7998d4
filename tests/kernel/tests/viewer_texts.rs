//! The kept texts of the viewer are what this kernel makes of the shipped meshes: none is only what the archive said once.

use oracle::average::refined;
use oracle::mesh::Mesh;
use oracle::stored::decode;
use std::path::Path;

/// Lines that are kept of what the viewer says, before the last one.
const FIRST_LINES: usize = 20;

fn from_root(path: &str) -> std::path::PathBuf {
    Path::new(env!("CARGO_MANIFEST_DIR")).join("../..").join(path)
}

/// What the viewer has to say: the counts, and each vertex in millimetres.
fn viewer_lines(mesh: &Mesh) -> Vec<String> {
    let [v, h, q, s, p] = mesh.places();
    let mut lines = vec![format!("{v} vertices, {h} hexes, {q} quads, {s} segments, {p} points")];
    for vertex in 0..mesh.vertex_count() {
        let [x, y, z] = mesh.position(vertex).map(|units| f64::from(units) / 1024.0);
        lines.push(format!("{vertex}: {x} {y} {z} mm"));
    }
    lines
}

fn kept_text(mesh: &Mesh) -> String {
    let lines = viewer_lines(mesh);
    let (last, before) = lines.split_last().expect("a line of counts");
    let kept: Vec<&str> = before.iter().take(FIRST_LINES).chain([last]).map(String::as_str).collect();
    format!("status 0\n{}\n", kept.join("\n"))
}

#[test]
fn the_kept_texts_are_right() {
    for (name, rounds) in [("p12", 1), ("hub", 1), ("bracket", 1), ("bracket", 2)] {
        let bytes = std::fs::read(from_root(&format!("examples/meshes/{name}.mlca"))).expect(name);
        let mesh = decode(&bytes, [1000; 5]).expect(name);
        let kept = std::fs::read_to_string(from_root(&format!("tests/viewer/{name}-{rounds}.txt"))).expect(name);
        assert_eq!(kept, kept_text(&refined(&mesh, rounds)), "{name} after {rounds}");
    }
}
