//! The stored sample meshes and the page that describes them.

use crate::castings;
use crate::mesh::Mesh;
use crate::samples::*;
use crate::stored::encode;

pub struct Sample {
    pub name: &'static str,
    pub about: &'static str,
    pub mesh: Mesh,
}

fn sample(name: &'static str, mesh: Mesh, about: &'static str) -> Sample {
    Sample { name, about, mesh }
}

/// All samples, in the order of the page.
pub fn catalogue() -> Vec<Sample> {
    [paper_samples(), width_samples(), further_samples()].into_iter().flatten().collect()
}

fn paper_samples() -> Vec<Sample> {
    vec![
        sample("p1", p1(), "P1: segment 0 to 8; after 1 round 2, 6, 4. P4: after 2 rounds 2, 5, 4, 3, 5"),
        sample("p2", p2(), "P2: segment 0 to 7; after 1 round 1, 5, 3"),
        sample("p3", p3(), "P3: segment 0 to -7; after 1 round -2, -6, -4"),
        sample("p5", p5(), "P5: P1 with a point at each end; after 1 round 0, 8, 4"),
        sample("p6", p6(), "P6: segments from 0 to 8, -8 and 16; after 1 round vertex 0 is at 1"),
        sample("p7", p7(), "P7: a quad of side 8; after 1 round corner 0 is at (2,2,0)"),
        sample("p8", p8(), "P8: a cube of side 8; after 1 round 27 vertices. P10: after 2 rounds 125 vertices"),
        sample("p9", p9(), "P9: P8 with its six faces as quads; after 1 round corner 0 is at (1,1,1)"),
    ]
}

fn width_samples() -> Vec<Sample> {
    vec![
        sample("p11-1", p11(1), "P11: 1 vertex, width 1"),
        sample("p11-2", p11(2), "P11: 2 vertices, width 1"),
        sample("p11-3", p11(3), "P11: 3 vertices, width 2"),
        sample("p11-256", p11(256), "P11: 256 vertices, width 8"),
        sample("p11-257", p11(257), "P11: 257 vertices, width 9; too many points for the listing (refused 11)"),
    ]
}

fn further_samples() -> Vec<Sample> {
    vec![
        sample("p12", p12(), "P12: a grid of 3 by 3 vertices, 1 mm apart: ranks 0 1 0 1 2 1 0 1 0"),
        sample("uneven-segments", uneven_segments(), "segments from 0 to 1 and 7; after 1 round vertex 0 is at 1"),
        sample("touching-segments", touching_segments(), "two segments 0 to 8 that share no vertex; 6 after 1 round"),
        sample(
            "hub",
            castings::hub(),
            "a casting: five blocks round one edge, 20 mm in radius and 10 mm high; its whole shell and its sharp edges",
        ),
        sample(
            "bracket",
            castings::bracket(),
            "a casting in cubes of 10 mm, 24.0 cm3: a foot with a bolt hole and an upright wall; \
             its whole shell, sharp edges and corners",
        ),
    ]
}

/// What the page says of the castings, below its table.
const ABOUT_CASTINGS: &str = "
## The castings

`bracket.mlca` and `hub.mlca` list their whole shell as quads, its sharp edges as segments and its corners as points: without
that a solid shrinks in every round (docs/CREASES.md says by how much). `shell` in `tests/kernel` finds all three.
The hub has no corners: its rim turns by 36 degrees at a time and is meant to be round.

The short call `mlca_refine` and the listing program hold 1,000 vertices and 256 cells of each kind, before and after the
rounds. The hub fits them for one round. The bracket's 72 quads become 288 in one round, so they refuse it (refusal 11); the
viewer then goes on to `mlca_refine_tables`, which takes any size. The bracket keeps its size all the same: one that leaves
out part of its shell to fit would teach the way that loses volume.
";

/// The page that stands beside the files.
pub fn page() -> String {
    let mut text = String::from(concat!(
        "# Sample meshes\n\n",
        "Stored meshes (docs/SPECIFICATION.md, section 8), made by `make_samples` in `tests/kernel`.\n",
        "Coordinates are in units of 1/1024 mm. The listing program, which `tools/archive` builds, takes one byte with the\n",
        "rounds and then a mesh. In the root: `printf '\\001' | cat - examples/meshes/p1.mlca | target/bin/listing`.\n\n",
        "| File | Bytes | Vertices | Hexes | Quads | Segments | Points | What it is |\n",
        "|---|---|---|---|---|---|---|---|\n",
    ));
    for sample in catalogue() {
        let [v, h, q, s, p] = sample.mesh.places();
        let bytes = encode(&sample.mesh).len();
        text += &format!("| {}.mlca | {bytes} | {v} | {h} | {q} | {s} | {p} | {} |\n", sample.name, sample.about);
    }
    text + ABOUT_CASTINGS
}
