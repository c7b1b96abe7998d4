//! The picture of docs/CREASES.md: each casting as blocks, and refined with no creases, with its shell, and with its shell,
//! sharp edges and corners. In the refined ones the edges of the blocks are drawn behind, to show what is lost.

use crate::average::refined;
use crate::bracket;
use crate::castings::{hub_blocks, ROUNDS, WAYS};
use crate::mesh::Mesh;
use crate::shell::{with_creases, Creases};
use crate::view::{visible_tiles, Camera, Spot, Tile};
use crate::volume::{in_cm3, volume};

/// Sizes on the page.
const PER_MILLIMETRE: f64 = 4.0;
const PANEL_WIDTH: f64 = 280.0;
const MARGIN: f64 = 14.0;
const CAPTION: f64 = 50.0;

/// The metal in full light: red, green, blue.
const METAL: [f64; 3] = [205.0, 218.0, 236.0];

/// Moves what is seen to its place on the page.
#[derive(Clone, Copy)]
struct Frame {
    left: f64,
    top: f64,
}

impl Frame {
    fn pair(&self, spot: &Spot) -> String {
        let across = self.left + PER_MILLIMETRE * spot.across;
        let down = self.top + PER_MILLIMETRE * spot.down;
        format!("{across:.1} {down:.1}")
    }

    fn line(&self, [from, to]: &[Spot; 2]) -> String {
        format!("M{}L{}", self.pair(from), self.pair(to))
    }
}

/// The least and greatest places of a mesh on the page, across and down, in millimetres.
fn extent(mesh: &Mesh, camera: &Camera) -> ([f64; 2], [f64; 2]) {
    let spots: Vec<Spot> = (0..mesh.vertex_count() as u32).map(|vertex| camera.spot(mesh, vertex)).collect();
    let least = |part: fn(&Spot) -> f64| spots.iter().map(part).fold(f64::INFINITY, f64::min);
    let greatest = |part: fn(&Spot) -> f64| spots.iter().map(part).fold(f64::NEG_INFINITY, f64::max);
    let (across, down): (fn(&Spot) -> f64, fn(&Spot) -> f64) = (|spot| spot.across, |spot| spot.down);
    ([least(across), greatest(across)], [least(down), greatest(down)])
}

fn colour(brightness: f64) -> String {
    let [red, green, blue] = METAL.map(|part| (part * brightness).round() as u8);
    format!("#{red:02x}{green:02x}{blue:02x}")
}

fn tile_marks(tile: &Tile, frame: &Frame) -> String {
    let corners = tile.corners.map(|spot| frame.pair(&spot));
    let mut text = format!("<path d=\"M{}z\" fill=\"{}\"/>\n", corners.join("L"), colour(tile.brightness));
    if !tile.segments.is_empty() {
        let lines: String = tile.segments.iter().map(|ends| frame.line(ends)).collect();
        text += &format!("<path class=\"segment\" d=\"{lines}\"/>\n");
    }
    for point in &tile.points {
        text += &format!("<path class=\"point\" d=\"M{}h0\"/>\n", frame.pair(point));
    }
    text
}

/// The sharp edges of the blocks, all of them, as they are seen through the solid.
fn outline(blocks: &Mesh, camera: &Camera, frame: &Frame) -> String {
    let sharp = with_creases(blocks, Creases::ShellAndSharpEdges);
    let ends = |row: &[u32]| [camera.spot(&sharp, row[0]), camera.spot(&sharp, row[1])];
    let lines: String = sharp.rows(1).map(|row| frame.line(&ends(row))).collect();
    format!("<path class=\"outline\" d=\"{lines}\"/>\n")
}

/// What a panel shows, and the words under it.
struct Panel {
    mesh: Mesh,
    words: String,
    with_outline: bool,
}

fn panels(name: &str, blocks: &Mesh) -> Vec<Panel> {
    let mut row = vec![Panel { mesh: blocks.clone(), words: format!("{name} in blocks"), with_outline: false }];
    for (creases, words) in WAYS {
        let mesh = refined(&with_creases(blocks, creases), ROUNDS);
        row.push(Panel { mesh, words: format!("{ROUNDS} rounds, {words}"), with_outline: true });
    }
    row
}

/// One casting in four panels from a place down the page; the text and how far down it goes.
fn row_of_panels(name: &str, blocks: &Mesh, top: f64) -> (String, f64) {
    let camera = Camera::default();
    let (across, down) = extent(blocks, &camera);
    let height = PER_MILLIMETRE * (down[1] - down[0]);
    let mut text = String::new();
    for (number, panel) in panels(name, blocks).iter().enumerate() {
        let middle = PANEL_WIDTH * (number as f64 + 0.5);
        let frame = Frame {
            left: middle - PER_MILLIMETRE * (across[0] + across[1]) / 2.0,
            top: top + MARGIN - PER_MILLIMETRE * down[0],
        };
        if panel.with_outline {
            text += &outline(blocks, &camera, &frame);
        }
        visible_tiles(&panel.mesh, &camera).iter().for_each(|tile| text += &tile_marks(tile, &frame));
        text += &caption(panel, middle, top + MARGIN + height);
    }
    (text, top + MARGIN + height + CAPTION)
}

fn caption(panel: &Panel, middle: f64, below: f64) -> String {
    let volume = in_cm3(volume(&panel.mesh));
    let (first, second) = (below + 20.0, below + 38.0);
    format!(
        "<text x=\"{middle:.1}\" y=\"{first:.1}\">{}</text>\n\
         <text class=\"volume\" x=\"{middle:.1}\" y=\"{second:.1}\">{volume} cm3</text>\n",
        panel.words
    )
}

const STYLE: &str = "<style>\n\
    path { stroke: #3c4a60; stroke-width: 0.5; stroke-linejoin: round; stroke-linecap: round }\n\
    .segment { stroke: #b3261e; stroke-width: 1.8; fill: none }\n\
    .point { stroke: #b3261e; stroke-width: 6 }\n\
    .outline { stroke: #8c8c8c; stroke-width: 0.9; stroke-dasharray: 3 3; fill: none }\n\
    text { font: 14px sans-serif; text-anchor: middle; fill: #1d1d1d }\n\
    .volume { font-weight: bold }\n\
    </style>\n";

/// The whole picture as SVG.
pub fn picture() -> String {
    let (bracket, below_bracket) = row_of_panels("bracket", &bracket::blocks(), 0.0);
    let (hub, height) = row_of_panels("hub", &hub_blocks(), below_bracket + MARGIN);
    let width = 4.0 * PANEL_WIDTH;
    format!(
        "<svg xmlns=\"http://www.w3.org/2000/svg\" viewBox=\"0 0 {width:.0} {height:.0}\" \
         width=\"{width:.0}\" height=\"{height:.0}\">\n{STYLE}\
         <rect width=\"100%\" height=\"100%\" fill=\"white\"/>\n{bracket}{hub}</svg>\n"
    )
}
