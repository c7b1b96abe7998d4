//! The five tables of a mesh and their limits (rules 1.1 to 1.5).

pub const LEAST_COORDINATE: i32 = -536_870_912;
pub const GREATEST_COORDINATE: i32 = 536_870_911;
pub const MOST_VERTICES: usize = 1_000_000;
pub const MOST_CELLS: usize = 250_000;

/// Dimensions of the cell tables, in the order of rule 1.5.
pub const DIMENSIONS: [usize; 4] = [3, 2, 1, 0];

/// How many corners a cell of this dimension has: point 1, segment 2, quad 4, hex 8.
pub fn corner_count(dimension: usize) -> usize {
    1 << dimension
}

/// A mesh as flat tables, so that a table can be ragged (refusal 1). Lent tables have the same type.
#[derive(Clone, Debug, Default, PartialEq, Eq)]
pub struct Mesh {
    pub vertices: Vec<i32>,
    pub hexes: Vec<u32>,
    pub quads: Vec<u32>,
    pub segments: Vec<u32>,
    pub points: Vec<u32>,
}

/// The five counts of an answer; C sees the same layout.
#[repr(C)]
#[derive(Clone, Copy, Debug, Default, PartialEq, Eq)]
pub struct Counts {
    pub vertices: u32,
    pub hexes: u32,
    pub quads: u32,
    pub segments: u32,
    pub points: u32,
}

impl Counts {
    /// Vertices, hexes, quads, segments, points.
    pub fn list(&self) -> [u32; 5] {
        [self.vertices, self.hexes, self.quads, self.segments, self.points]
    }

    pub fn from_list(list: [u32; 5]) -> Counts {
        let [vertices, hexes, quads, segments, points] = list;
        Counts { vertices, hexes, quads, segments, points }
    }
}

impl Mesh {
    pub fn cells(&self, dimension: usize) -> &[u32] {
        match dimension {
            0 => &self.points,
            1 => &self.segments,
            2 => &self.quads,
            3 => &self.hexes,
            _ => panic!("no cells of dimension {dimension}"),
        }
    }

    pub fn cells_mut(&mut self, dimension: usize) -> &mut Vec<u32> {
        match dimension {
            0 => &mut self.points,
            1 => &mut self.segments,
            2 => &mut self.quads,
            3 => &mut self.hexes,
            _ => panic!("no cells of dimension {dimension}"),
        }
    }

    /// The four cell tables by dimension.
    pub fn tables(&self) -> [&[u32]; 4] {
        [&self.points, &self.segments, &self.quads, &self.hexes]
    }

    pub fn rows(&self, dimension: usize) -> std::slice::ChunksExact<'_, u32> {
        self.cells(dimension).chunks_exact(corner_count(dimension))
    }

    /// Whole entries; what is over in a ragged table is not counted.
    pub fn vertex_count(&self) -> usize {
        self.vertices.len() / 3
    }

    pub fn cell_count(&self, dimension: usize) -> usize {
        self.cells(dimension).len() / corner_count(dimension)
    }

    /// Whole entries of the five tables: the counts of a mesh, or the places of lent tables.
    pub fn places(&self) -> [usize; 5] {
        let [hexes, quads, segments, points] = DIMENSIONS.map(|d| self.cell_count(d));
        [self.vertex_count(), hexes, quads, segments, points]
    }

    pub fn counts(&self) -> Counts {
        Counts::from_list(self.places().map(|places| places as u32))
    }

    pub fn position(&self, vertex: usize) -> [i32; 3] {
        [self.vertices[3 * vertex], self.vertices[3 * vertex + 1], self.vertices[3 * vertex + 2]]
    }

    pub fn add_vertex(&mut self, position: [i32; 3]) -> u32 {
        self.vertices.extend(position);
        self.vertex_count() as u32 - 1
    }

    /// Tables of zeros with the given places.
    pub fn zeros(places: [usize; 5]) -> Mesh {
        let [vertices, hexes, quads, segments, points] = places;
        Mesh {
            vertices: vec![0; 3 * vertices],
            hexes: vec![0; 8 * hexes],
            quads: vec![0; 4 * quads],
            segments: vec![0; 2 * segments],
            points: vec![0; points],
        }
    }

    /// Writes a mesh over the first part of these tables; the unused rest stays (rule 6.4).
    pub fn overwrite(&mut self, mesh: &Mesh) {
        self.vertices[..mesh.vertices.len()].copy_from_slice(&mesh.vertices);
        for dimension in DIMENSIONS {
            let cells = mesh.cells(dimension);
            self.cells_mut(dimension)[..cells.len()].copy_from_slice(cells);
        }
    }

    pub fn clear(&mut self) {
        self.vertices.fill(0);
        for dimension in DIMENSIONS {
            self.cells_mut(dimension).fill(0);
        }
    }
}
