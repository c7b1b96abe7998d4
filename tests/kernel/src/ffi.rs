//! The C interface of the archive libmlca.a, and safe wrappers. Only there when the archive is linked.

use crate::answers::{CountAnswer, CountsAnswer, MillimetresAnswer};
use crate::entries::{Kernel, Lent};
use crate::fence::{next_side, Fenced, FencedMesh};
use crate::mesh::Mesh;

extern "C" {
    fn mlca_refine(stored: *const u8, stored_len: usize, rounds: u32, result: *mut u8, result_len: usize) -> i64;
    fn mlca_irregular_count(stored: *const u8, stored_len: usize) -> i64;
    fn mlca_millimetres(x: i32, y: i32, z: i32) -> MillimetresAnswer;
    fn mlca_stored_counts(stored: *const u8, stored_len: usize) -> CountsAnswer;
    fn mlca_version() -> u32;

    #[rustfmt::skip]
    fn mlca_finished_counts(
        vertices: *const i32,
        vertices_len: usize,
        hexes: *const u32,
        hexes_len: usize,
        quads: *const u32,
        quads_len: usize,
        segments: *const u32,
        segments_len: usize,
        points: *const u32,
        points_len: usize,
        rounds: u32,
        numbers: *mut u32,
        numbers_len: usize,
    ) -> CountsAnswer;

    #[rustfmt::skip]
    fn mlca_refine_tables(
        vertices: *const i32,
        vertices_len: usize,
        hexes: *const u32,
        hexes_len: usize,
        quads: *const u32,
        quads_len: usize,
        segments: *const u32,
        segments_len: usize,
        points: *const u32,
        points_len: usize,
        rounds: u32,
        output_vertices: *mut i32,
        output_vertices_len: usize,
        output_hexes: *mut u32,
        output_hexes_len: usize,
        output_quads: *mut u32,
        output_quads_len: usize,
        output_segments: *mut u32,
        output_segments_len: usize,
        output_points: *mut u32,
        output_points_len: usize,
        working_vertices: *mut i32,
        working_vertices_len: usize,
        working_hexes: *mut u32,
        working_hexes_len: usize,
        working_quads: *mut u32,
        working_quads_len: usize,
        working_segments: *mut u32,
        working_segments_len: usize,
        working_points: *mut u32,
        working_points_len: usize,
        numbers32: *mut u32,
        numbers32_len: usize,
        numbers64: *mut u64,
        numbers64_len: usize,
    ) -> CountsAnswer;

    #[rustfmt::skip]
    fn mlca_read_tables(
        stored: *const u8,
        stored_len: usize,
        vertices: *mut i32,
        vertices_len: usize,
        hexes: *mut u32,
        hexes_len: usize,
        quads: *mut u32,
        quads_len: usize,
        segments: *mut u32,
        segments_len: usize,
        points: *mut u32,
        points_len: usize,
    ) -> CountsAnswer;

    #[rustfmt::skip]
    fn mlca_write_tables(
        vertices: *const i32,
        vertices_len: usize,
        hexes: *const u32,
        hexes_len: usize,
        quads: *const u32,
        quads_len: usize,
        segments: *const u32,
        segments_len: usize,
        points: *const u32,
        points_len: usize,
        result: *mut u8,
        result_len: usize,
    ) -> CountAnswer;

    #[rustfmt::skip]
    fn mlca_irregular_count_tables(
        vertices: *const i32,
        vertices_len: usize,
        hexes: *const u32,
        hexes_len: usize,
        quads: *const u32,
        quads_len: usize,
        segments: *const u32,
        segments_len: usize,
        points: *const u32,
        points_len: usize,
        numbers: *mut u32,
        numbers_len: usize,
    ) -> CountAnswer;
}

/// The kernel in the linked archive. Every pointer below comes with the length of the memory it points to, no two of
/// them overlap, and all of it is fenced.
pub struct Archive;

impl Kernel for Archive {
    fn version(&self) -> u32 {
        unsafe { mlca_version() }
    }

    #[rustfmt::skip]
    fn finished_counts(&self, mesh: &Mesh, rounds: u32, working: &mut [u32]) -> CountsAnswer {
        let side = next_side();
        let (m, numbers) = (FencedMesh::given(mesh, side), Fenced::lent(working, side));
        let answer = unsafe {
            mlca_finished_counts(
                m.vertices.at, m.vertices.len, m.hexes.at, m.hexes.len, m.quads.at, m.quads.len,
                m.segments.at, m.segments.len, m.points.at, m.points.len, rounds, numbers.at, numbers.len,
            )
        };
        numbers.give_back(working);
        answer
    }

    #[rustfmt::skip]
    fn refine(&self, mesh: &Mesh, rounds: u32, lent: &mut Lent) -> CountsAnswer {
        let side = next_side();
        let m = FencedMesh::given(mesh, side);
        let [output, working] = [&lent.output, &lent.working].map(|tables| FencedMesh::lent(tables, side));
        let numbers32 = Fenced::lent(&lent.numbers32, side);
        let numbers64 = Fenced::lent(&lent.numbers64, side);
        let answer = unsafe {
            mlca_refine_tables(
                m.vertices.at, m.vertices.len, m.hexes.at, m.hexes.len, m.quads.at, m.quads.len,
                m.segments.at, m.segments.len, m.points.at, m.points.len, rounds,
                output.vertices.at, output.vertices.len, output.hexes.at, output.hexes.len, output.quads.at, output.quads.len,
                output.segments.at, output.segments.len, output.points.at, output.points.len,
                working.vertices.at, working.vertices.len, working.hexes.at, working.hexes.len, working.quads.at, working.quads.len,
                working.segments.at, working.segments.len, working.points.at, working.points.len,
                numbers32.at, numbers32.len, numbers64.at, numbers64.len,
            )
        };
        output.give_back(&mut lent.output);
        working.give_back(&mut lent.working);
        numbers32.give_back(&mut lent.numbers32);
        numbers64.give_back(&mut lent.numbers64);
        answer
    }

    #[rustfmt::skip]
    fn irregular_count(&self, mesh: &Mesh, working: &mut [u32]) -> CountAnswer {
        let side = next_side();
        let (m, numbers) = (FencedMesh::given(mesh, side), Fenced::lent(working, side));
        let answer = unsafe {
            mlca_irregular_count_tables(
                m.vertices.at, m.vertices.len, m.hexes.at, m.hexes.len, m.quads.at, m.quads.len,
                m.segments.at, m.segments.len, m.points.at, m.points.len, numbers.at, numbers.len,
            )
        };
        numbers.give_back(working);
        answer
    }

    fn millimetres(&self, [x, y, z]: [i32; 3]) -> MillimetresAnswer {
        unsafe { mlca_millimetres(x, y, z) }
    }

    fn stored_counts(&self, bytes: &[u8]) -> CountsAnswer {
        let stored = Fenced::given(bytes, next_side());
        unsafe { mlca_stored_counts(stored.at, stored.len) }
    }

    #[rustfmt::skip]
    fn read(&self, bytes: &[u8], tables: &mut Mesh) -> CountsAnswer {
        let side = next_side();
        let (stored, t) = (Fenced::given(bytes, side), FencedMesh::lent(tables, side));
        let answer = unsafe {
            mlca_read_tables(
                stored.at, stored.len, t.vertices.at, t.vertices.len, t.hexes.at, t.hexes.len, t.quads.at, t.quads.len,
                t.segments.at, t.segments.len, t.points.at, t.points.len,
            )
        };
        t.give_back(tables);
        answer
    }

    #[rustfmt::skip]
    fn write(&self, mesh: &Mesh, buffer: &mut [u8]) -> CountAnswer {
        let side = next_side();
        let (m, result) = (FencedMesh::given(mesh, side), Fenced::lent(buffer, side));
        let answer = unsafe {
            mlca_write_tables(
                m.vertices.at, m.vertices.len, m.hexes.at, m.hexes.len, m.quads.at, m.quads.len,
                m.segments.at, m.segments.len, m.points.at, m.points.len, result.at, result.len,
            )
        };
        result.give_back(buffer);
        answer
    }

    fn refine_stored(&self, stored: &[u8], rounds: u32, result: &mut [u8]) -> i64 {
        let side = next_side();
        let (file, room) = (Fenced::given(stored, side), Fenced::lent(result, side));
        let answer = unsafe { mlca_refine(file.at, file.len, rounds, room.at, room.len) };
        room.give_back(result);
        answer
    }

    fn irregular_count_stored(&self, stored: &[u8]) -> i64 {
        let file = Fenced::given(stored, next_side());
        unsafe { mlca_irregular_count(file.at, file.len) }
    }
}
