//! A kernel held against the oracle, call by call: the answer and all lent memory on return must agree.

pub mod c_path;
pub mod counting;
pub mod difference;
pub mod finished;
pub mod headers;
pub mod large;
pub mod listing;
pub mod memory;
pub mod noise;
pub mod refining;
pub mod stored;
pub mod tally;

use crate::answers::Position;
use crate::entries::{Kernel, Lent, Oracle};
use crate::mesh::Mesh;
use difference::{digits, outline, Answer, Memory, Version};
use tally::Tally;

/// One kernel under test and what has been found so far.
pub struct Comparison<'a> {
    pub kernel: &'a dyn Kernel,
    pub tally: Tally,
    /// How many times the usual number of cases is run.
    pub scale: u64,
    /// Each call is named before it is made, to find one that does not come back.
    pub trace: bool,
}

/// Runs the cases of one group.
pub type Group = fn(&mut Comparison);

/// The groups of cases by name.
pub const GROUPS: [(&str, Group); 23] = [
    ("samples", refining::samples),
    ("valid meshes", refining::valid_meshes),
    ("damaged meshes", refining::damaged_meshes),
    ("third property", refining::third_property),
    ("every length of lent memory", memory::every_length),
    ("every length of a mesh's tables", memory::every_length_of_tables),
    ("every length of tables to read into", stored::every_length),
    ("every length on the C path", c_path::every_length),
    ("every length for finished counts", finished::every_length),
    ("checks in short memory", memory::checks_in_short_memory),
    ("large meshes in short memory", memory::large_in_short_memory),
    ("irregular counts", counting::irregular_counts),
    ("millimetres", counting::millimetres),
    ("finished counts", finished::finished_counts),
    ("limits of rounds", finished::limits_of_rounds),
    ("counts in headers", headers::stored_counts),
    ("reading", stored::reading),
    ("reading damaged files", stored::reading_damaged),
    ("writing", stored::writing),
    ("C path", c_path::c_path),
    ("noise in tables", noise::tables),
    ("noise in files", noise::files),
    ("limits of size", large::limits),
];

impl<'a> Comparison<'a> {
    pub fn new(kernel: &'a dyn Kernel, scale: u64) -> Comparison<'a> {
        Comparison { kernel, tally: Tally::default(), scale, trace: false }
    }

    /// Makes one call of both kernels in memory that starts alike; answers and memory must agree.
    fn both<A: Answer, M: Memory>(
        &mut self,
        name: impl Fn() -> String,
        memory: &M,
        call: impl Fn(&dyn Kernel, &mut M) -> A,
    ) {
        if self.trace {
            eprintln!("{}", name());
        }
        let (mut wanted_memory, mut found_memory) = (memory.clone(), memory.clone());
        let wanted = call(&Oracle, &mut wanted_memory);
        let found = call(self.kernel, &mut found_memory);
        let problem = if found != wanted {
            Some(format!("answers {found:?}, not {wanted:?}"))
        } else {
            M::difference(&wanted_memory, &found_memory)
        };
        self.tally.judge(wanted.refusal(), problem, name);
    }

    pub fn version(&mut self) {
        self.both(|| "version".into(), &(), |kernel, _| Version(kernel.version()));
    }

    pub fn finished_counts(&mut self, mesh: &Mesh, rounds: u32, working: &[u32]) {
        let name =
            || format!("finished counts, {rounds} rounds, {} working numbers, of {}", working.len(), outline(mesh));
        self.both(name, &working.to_vec(), |kernel, memory| kernel.finished_counts(mesh, rounds, memory));
    }

    pub fn refine(&mut self, mesh: &Mesh, rounds: u32, lent: &Lent) {
        let name = || format!("refining {rounds} rounds of {}", outline(mesh));
        self.both(name, lent, |kernel, memory| kernel.refine(mesh, rounds, memory));
    }

    pub fn irregular_count(&mut self, mesh: &Mesh, working: &[u32]) {
        let name = || format!("irregular count, {} working numbers, of {}", working.len(), outline(mesh));
        self.both(name, &working.to_vec(), |kernel, memory| kernel.irregular_count(mesh, memory));
    }

    pub fn stored_counts(&mut self, bytes: &[u8]) {
        let name = || format!("counts in the header of {}", digits(bytes));
        self.both(name, &(), |kernel, _| kernel.stored_counts(bytes));
    }

    pub fn read(&mut self, bytes: &[u8], tables: &Mesh) {
        let name = || format!("reading into places {:?} of {}", tables.places(), digits(bytes));
        self.both(name, tables, |kernel, memory| kernel.read(bytes, memory));
    }

    pub fn write(&mut self, mesh: &Mesh, buffer: &[u8]) {
        let name = || format!("writing into {} bytes of {}", buffer.len(), outline(mesh));
        self.both(name, &buffer.to_vec(), |kernel, memory| kernel.write(mesh, memory));
    }

    pub fn refine_stored(&mut self, stored: &[u8], rounds: u32, result: &[u8]) {
        let name = || format!("C path, {rounds} rounds, room {}, of {}", result.len(), digits(stored));
        self.both(name, &result.to_vec(), |kernel, memory| kernel.refine_stored(stored, rounds, memory));
    }

    pub fn irregular_count_stored(&mut self, stored: &[u8]) {
        let name = || format!("C path, irregular count of {}", digits(stored));
        self.both(name, &(), |kernel, _| kernel.irregular_count_stored(stored));
    }

    pub fn millimetres(&mut self, coordinates: [i32; 3]) {
        let name = || format!("millimetres of {coordinates:?}");
        self.both(name, &(), |kernel, _| {
            let answer = kernel.millimetres(coordinates);
            let Position { x, y, z } = answer.position;
            (answer.refusal, [x, y, z].map(f64::to_bits))
        });
    }
}
