//! A solid seen from the front, from the right and from above, without perspective: its visible faces from far to near.
//! Only sums, products, quotients and square roots are used, which are the same to the last bit on every machine.

use crate::cells::{corner_set, corners_at, edges};
use crate::mesh::Mesh;
use crate::shell::{normal, shell};
use std::collections::HashSet;

type Direction = [f64; 3];

/// Toward the eye, before it is made one unit long.
const EYE: Direction = [0.62, -1.0, 1.0];
/// Toward the light: from above, and rather from the left.
const LIGHT: Direction = [-0.35, -0.75, 1.3];
/// What a face shows that is turned away from the light.
const DIMMEST: f64 = 0.42;

fn dot(a: &Direction, b: &Direction) -> f64 {
    a[0] * b[0] + a[1] * b[1] + a[2] * b[2]
}

fn cross(a: &Direction, b: &Direction) -> Direction {
    [a[1] * b[2] - a[2] * b[1], a[2] * b[0] - a[0] * b[2], a[0] * b[1] - a[1] * b[0]]
}

fn of_length_one(a: &Direction) -> Direction {
    let length = dot(a, a).sqrt();
    a.map(|part| part / length)
}

/// A place on the page in millimetres, across and down, and how near it is to the eye.
#[derive(Clone, Copy, Debug)]
pub struct Spot {
    pub across: f64,
    pub down: f64,
    pub near: f64,
}

pub struct Camera {
    right: Direction,
    up: Direction,
    toward: Direction,
    light: Direction,
}

impl Default for Camera {
    fn default() -> Camera {
        let toward = of_length_one(&EYE);
        let right = of_length_one(&cross(&[0.0, 0.0, 1.0], &toward));
        Camera { right, up: cross(&toward, &right), toward, light: of_length_one(&LIGHT) }
    }
}

impl Camera {
    pub fn spot(&self, mesh: &Mesh, vertex: u32) -> Spot {
        let place = mesh.position(vertex as usize).map(|units| f64::from(units) / 1024.0);
        Spot { across: dot(&place, &self.right), down: -dot(&place, &self.up), near: dot(&place, &self.toward) }
    }

    /// From 0 for black to 1 for full light.
    fn brightness(&self, outward: &Direction) -> f64 {
        DIMMEST + (1.0 - DIMMEST) * dot(outward, &self.light).max(0.0)
    }
}

/// A visible face: its corners going round, its light, and which of its edges and corners are creases.
pub struct Tile {
    pub corners: [Spot; 4],
    pub brightness: f64,
    pub segments: Vec<[Spot; 2]>,
    pub points: Vec<Spot>,
}

impl Tile {
    fn near(&self) -> f64 {
        self.corners.iter().map(|spot| spot.near).sum()
    }
}

/// The faces of the shell that look toward the eye, from far to near, so that each hides what is behind it.
pub fn visible_tiles(mesh: &Mesh, camera: &Camera) -> Vec<Tile> {
    let segments: HashSet<[u32; 2]> = mesh.rows(1).map(|ends| corner_set([ends[0], ends[1]])).collect();
    let points: HashSet<u32> = mesh.points.iter().copied().collect();
    let mut tiles = Vec::new();
    for face in shell(mesh) {
        let outward = of_length_one(&normal(mesh, &face).map(|part| part as f64));
        if dot(&outward, &camera.toward) <= 0.0 {
            continue;
        }
        let sides = edges(2).iter().map(|&places| corners_at(&face, places));
        let listed = sides.filter(|side| segments.contains(&corner_set(*side)));
        tiles.push(Tile {
            corners: face.map(|corner| camera.spot(mesh, corner)),
            brightness: camera.brightness(&outward),
            segments: listed.map(|side| side.map(|end| camera.spot(mesh, end))).collect(),
            points: face.iter().filter(|corner| points.contains(corner)).map(|&c| camera.spot(mesh, c)).collect(),
        });
    }
    tiles.sort_by(|a, b| a.near().total_cmp(&b.near()));
    tiles
}
