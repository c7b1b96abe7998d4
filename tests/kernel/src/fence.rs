//! Memory between two pages that may not be touched: a call that reads or writes beyond a buffer ends the program, and
//! so does one that writes to what it was only given to read.

use crate::mesh::Mesh;
use std::ffi::{c_int, c_void};
use std::sync::atomic::{AtomicBool, Ordering};

/// The archive is for x86-64, and these are Linux's numbers there.
const PAGE: usize = 4096;
const NO_ACCESS: c_int = 0;
const READ: c_int = 1;
const READ_AND_WRITE: c_int = 3;
const PRIVATE_AND_ANONYMOUS: c_int = 0x22;

extern "C" {
    fn mmap(at: *mut c_void, length: usize, access: c_int, flags: c_int, file: c_int, offset: i64) -> *mut c_void;
    fn mprotect(at: *mut c_void, length: usize, access: c_int) -> c_int;
    fn munmap(at: *mut c_void, length: usize) -> c_int;
}

/// Which page a buffer lies against.
#[derive(Clone, Copy)]
pub enum Side {
    First,
    Last,
}

/// Each side in turn, so that calls go beyond neither end unseen.
pub fn next_side() -> Side {
    static LAST: AtomicBool = AtomicBool::new(false);
    if LAST.fetch_xor(true, Ordering::Relaxed) {
        Side::Last
    } else {
        Side::First
    }
}

/// A buffer against one of the two pages, with a copy of some contents.
pub struct Fenced<T> {
    mapping: *mut c_void,
    size: usize,
    pub at: *mut T,
    pub len: usize,
}

impl<T: Copy> Fenced<T> {
    /// A buffer that may be written to.
    pub fn lent(contents: &[T], side: Side) -> Fenced<T> {
        let bytes = std::mem::size_of_val(contents);
        let inner = bytes.div_ceil(PAGE) * PAGE;
        let size = inner + 2 * PAGE;
        let offset = match side {
            Side::First => PAGE,
            Side::Last => PAGE + inner - bytes,
        };
        unsafe {
            let mapping = mmap(std::ptr::null_mut(), size, NO_ACCESS, PRIVATE_AND_ANONYMOUS, -1, 0);
            assert!(mapping as isize != -1, "no memory for a buffer");
            let fenced = Fenced { mapping, size, at: mapping.byte_add(offset).cast::<T>(), len: contents.len() };
            fenced.allow(READ_AND_WRITE);
            std::ptr::copy_nonoverlapping(contents.as_ptr(), fenced.at, fenced.len);
            fenced
        }
    }

    /// A buffer that may only be read.
    pub fn given(contents: &[T], side: Side) -> Fenced<T> {
        let fenced = Fenced::lent(contents, side);
        fenced.allow(READ);
        fenced
    }

    fn allow(&self, access: c_int) {
        let inner = self.size - 2 * PAGE;
        let done = inner == 0 || unsafe { mprotect(self.mapping.byte_add(PAGE), inner, access) } == 0;
        assert!(done, "access to a buffer cannot be set");
    }

    /// Copies what the buffer holds to where its contents came from.
    pub fn give_back(&self, contents: &mut [T]) {
        assert_eq!(contents.len(), self.len);
        unsafe { std::ptr::copy_nonoverlapping(self.at, contents.as_mut_ptr(), self.len) }
    }
}

impl<T> Drop for Fenced<T> {
    fn drop(&mut self) {
        unsafe { munmap(self.mapping, self.size) };
    }
}

/// Five tables, each with pages of its own.
pub struct FencedMesh {
    pub vertices: Fenced<i32>,
    pub hexes: Fenced<u32>,
    pub quads: Fenced<u32>,
    pub segments: Fenced<u32>,
    pub points: Fenced<u32>,
}

impl FencedMesh {
    pub fn lent(mesh: &Mesh, side: Side) -> FencedMesh {
        FencedMesh {
            vertices: Fenced::lent(&mesh.vertices, side),
            hexes: Fenced::lent(&mesh.hexes, side),
            quads: Fenced::lent(&mesh.quads, side),
            segments: Fenced::lent(&mesh.segments, side),
            points: Fenced::lent(&mesh.points, side),
        }
    }

    pub fn given(mesh: &Mesh, side: Side) -> FencedMesh {
        let fenced = FencedMesh::lent(mesh, side);
        fenced.vertices.allow(READ);
        for table in [&fenced.hexes, &fenced.quads, &fenced.segments, &fenced.points] {
            table.allow(READ);
        }
        fenced
    }

    pub fn give_back(&self, mesh: &mut Mesh) {
        self.vertices.give_back(&mut mesh.vertices);
        self.hexes.give_back(&mut mesh.hexes);
        self.quads.give_back(&mut mesh.quads);
        self.segments.give_back(&mut mesh.segments);
        self.points.give_back(&mut mesh.points);
    }
}

#[cfg(test)]
mod tests {
    use super::*;

    #[test]
    fn contents_come_back() {
        for side in [Side::First, Side::Last] {
            for length in [0, 1, 3, 1023, 1024, 1025, 5000] {
                let contents: Vec<u32> = (0..length).collect();
                let mut copy = vec![9; contents.len()];
                Fenced::given(&contents, side).give_back(&mut copy);
                assert_eq!(copy, contents);
            }
        }
    }

    /// A buffer begins where the first page ends, or ends where the last page begins.
    #[test]
    fn buffers_lie_against_the_pages() {
        for length in [0, 1, 1024, 1025] {
            let contents = vec![7u32; length];
            let first = Fenced::given(&contents, Side::First);
            assert_eq!(first.at as usize, first.mapping as usize + PAGE);
            let last = Fenced::given(&contents, Side::Last);
            assert_eq!(last.at as usize + 4 * length, last.mapping as usize + last.size - PAGE);
        }
    }
}
