//! The entry points with their lent memory: for each input the complete result and all lent memory on return.

use crate::answers::{signed, CountAnswer, CountsAnswer, MillimetresAnswer, Position};
use crate::average::{irregular_count, refined};
use crate::checks::{check_mesh, check_refining, is_out_of_range};
use crate::mesh::{Counts, Mesh};
use crate::refusal::{refuse_if, Refusal};
use crate::stored::{decode, decode_counts, encode};

/// Places of the tables behind the C path and the listing program.
pub const FIXED_PLACES: [usize; 5] = [1000, 256, 256, 256, 256];

/// 1.1.0, as the archive tells it: major, minor and patch, each with two digits.
pub const VERSION: u32 = 1_01_00;

/// The memory that refining is lent (rule 6.8).
#[derive(Clone, Debug, Default, PartialEq, Eq)]
pub struct Lent {
    pub output: Mesh,
    pub working: Mesh,
    pub numbers32: Vec<u32>,
    pub numbers64: Vec<u64>,
}

impl Lent {
    /// Memory of zeros that is just enough for a finished mesh with these counts.
    pub fn exactly(finished: [usize; 5]) -> Lent {
        Lent {
            output: Mesh::zeros(finished),
            working: Mesh::zeros(finished),
            numbers32: vec![0; 8 * finished[0]],
            numbers64: vec![0; 3 * finished[0]],
        }
    }

    fn is_short(&self, finished: [usize; 5]) -> bool {
        let short = |tables: &Mesh| tables.places().iter().zip(finished).any(|(&places, count)| places < count);
        short(&self.output)
            || short(&self.working)
            || self.numbers32.len() < 8 * finished[0]
            || self.numbers64.len() < 3 * finished[0]
    }

    fn clear_working(&mut self) {
        self.working.clear();
        self.numbers32.fill(0);
        self.numbers64.fill(0);
    }
}

/// Every entry point of a kernel, so that two kernels can be compared.
pub trait Kernel {
    fn version(&self) -> u32;
    fn finished_counts(&self, mesh: &Mesh, rounds: u32, working: &mut [u32]) -> CountsAnswer;
    fn refine(&self, mesh: &Mesh, rounds: u32, lent: &mut Lent) -> CountsAnswer;
    fn irregular_count(&self, mesh: &Mesh, working: &mut [u32]) -> CountAnswer;
    fn millimetres(&self, coordinates: [i32; 3]) -> MillimetresAnswer;
    fn stored_counts(&self, bytes: &[u8]) -> CountsAnswer;
    fn read(&self, bytes: &[u8], tables: &mut Mesh) -> CountsAnswer;
    fn write(&self, mesh: &Mesh, buffer: &mut [u8]) -> CountAnswer;
    fn refine_stored(&self, stored: &[u8], rounds: u32, result: &mut [u8]) -> i64;
    fn irregular_count_stored(&self, stored: &[u8]) -> i64;
}

/// The separately written kernel.
pub struct Oracle;

impl Kernel for Oracle {
    fn version(&self) -> u32 {
        VERSION
    }

    fn finished_counts(&self, mesh: &Mesh, rounds: u32, working: &mut [u32]) -> CountsAnswer {
        working.fill(0);
        check_refining(mesh, rounds).map(in_32_bits).into()
    }

    fn refine(&self, mesh: &Mesh, rounds: u32, lent: &mut Lent) -> CountsAnswer {
        let result = refine(mesh, rounds, lent);
        lent.clear_working();
        result.into()
    }

    fn irregular_count(&self, mesh: &Mesh, working: &mut [u32]) -> CountAnswer {
        working.fill(0);
        check_mesh(mesh, 8).map(|()| irregular_count(mesh)).into()
    }

    fn millimetres(&self, coordinates: [i32; 3]) -> MillimetresAnswer {
        let [x, y, z] = coordinates.map(|units| f64::from(units) / 1024.0);
        refuse_if(coordinates.into_iter().any(is_out_of_range), Refusal::CoordinateOutOfRange)
            .map(|()| Position { x, y, z })
            .into()
    }

    fn stored_counts(&self, bytes: &[u8]) -> CountsAnswer {
        decode_counts(bytes).map(in_32_bits).into()
    }

    fn read(&self, bytes: &[u8], tables: &mut Mesh) -> CountsAnswer {
        let result = decode(bytes, tables.places()).map(|mesh| {
            tables.overwrite(&mesh);
            mesh.counts()
        });
        result.into()
    }

    fn write(&self, mesh: &Mesh, buffer: &mut [u8]) -> CountAnswer {
        write(mesh, buffer).into()
    }

    fn refine_stored(&self, stored: &[u8], rounds: u32, result: &mut [u8]) -> i64 {
        signed(refine_within(stored, rounds, FIXED_PLACES).and_then(|mesh| write(&mesh, result)))
    }

    fn irregular_count_stored(&self, stored: &[u8]) -> i64 {
        let count = |mesh: Mesh| check_mesh(&mesh, 8).map(|()| irregular_count(&mesh));
        signed(decode(stored, FIXED_PLACES).and_then(count))
    }
}

/// Counts within the ranges of a mesh, as an answer has them.
fn in_32_bits(counts: [usize; 5]) -> Counts {
    Counts::from_list(counts.map(|count| count as u32))
}

/// Checks 1 to 11, then the rounds, then the output.
fn refine(mesh: &Mesh, rounds: u32, lent: &mut Lent) -> Result<Counts, Refusal> {
    let finished = check_refining(mesh, rounds)?;
    refuse_if(lent.is_short(finished), Refusal::ShortBuffer)?;
    let fine = refined(mesh, rounds);
    lent.output.overwrite(&fine);
    Ok(fine.counts())
}

/// Reading's checks, then refining's, with tables of fixed places.
pub fn refine_within(stored: &[u8], rounds: u32, places: [usize; 5]) -> Result<Mesh, Refusal> {
    let mesh = decode(stored, places)?;
    let finished = check_refining(&mesh, rounds)?;
    let short = places.iter().zip(finished).any(|(&places, count)| places < count);
    refuse_if(short, Refusal::ShortBuffer)?;
    Ok(refined(&mesh, rounds))
}

/// Checks 1 to 4, then 11; answers with the count of bytes.
fn write(mesh: &Mesh, buffer: &mut [u8]) -> Result<u64, Refusal> {
    check_mesh(mesh, 4)?;
    let bytes = encode(mesh);
    refuse_if(buffer.len() < bytes.len(), Refusal::ShortBuffer)?;
    buffer[..bytes.len()].copy_from_slice(&bytes);
    Ok(bytes.len() as u64)
}
