//! The comparison itself: the oracle passes against itself, and kernels with one fault each are found out.

use oracle::answers::{CountAnswer, CountsAnswer, MillimetresAnswer};
use oracle::compare::{Comparison, GROUPS};
use oracle::entries::{Kernel, Lent, Oracle};
use oracle::mesh::Mesh;

/// The oracle with one fault.
#[derive(Clone, Copy, Debug, PartialEq)]
enum Faulty {
    None,
    WritesBeyondTheUsedPart,
    WritesOnRefusal,
    LeavesWorkingMemory,
    PleadsShortBufferEarly,
    RoundsUpAtValenceThree,
    CountsRegularVertices,
    ReadsBeforeTheLastCorner,
    WritesAByteMore,
    CountsRoundsBeforeIsolatedVertices,
    CountsFinishedBeyondTheRange,
    CountsSharedFacesTwice,
    LeavesNumbersOnRefusal,
    LooksAtTheIndexWidth,
    WantsTheWholeFile,
    IsOfAnotherVersion,
}

use Faulty::*;

impl Kernel for Faulty {
    fn version(&self) -> u32 {
        Oracle.version() + u32::from(*self == IsOfAnotherVersion)
    }

    fn finished_counts(&self, mesh: &Mesh, rounds: u32, working: &mut [u32]) -> CountsAnswer {
        let mut answer = Oracle.finished_counts(mesh, rounds, working);
        match self {
            CountsRoundsBeforeIsolatedVertices if answer.refusal == 8 && rounds > 8 => answer.refusal = 9,
            CountsFinishedBeyondTheRange if answer.refusal == 10 => answer.refusal = 0,
            CountsSharedFacesTwice if answer.refusal == 0 && rounds > 0 && mesh.cell_count(2) > 0 => {
                answer.counts.vertices += 1;
            }
            LeavesNumbersOnRefusal if answer.refusal > 4 => working.iter_mut().take(1).for_each(|number| *number = 1),
            _ => {}
        }
        answer
    }

    fn refine(&self, mesh: &Mesh, rounds: u32, lent: &mut Lent) -> CountsAnswer {
        let mut answer = Oracle.refine(mesh, rounds, lent);
        match self {
            WritesBeyondTheUsedPart if answer.refusal == 0 => {
                let used = 8 * answer.counts.hexes as usize;
                lent.output.hexes[used..].iter_mut().for_each(|corner| *corner = 0);
            }
            WritesOnRefusal if answer.refusal == 11 => lent.output.clear(),
            LeavesWorkingMemory => lent.numbers64.iter_mut().take(1).for_each(|number| *number = 1),
            PleadsShortBufferEarly if answer.refusal == 10 && lent.numbers32.is_empty() => answer.refusal = 11,
            RoundsUpAtValenceThree if mesh.cell_count(1) == 3 => {
                lent.output.vertices.iter_mut().take(1).for_each(|coordinate| *coordinate = coordinate.wrapping_add(1));
            }
            _ => {}
        }
        answer
    }

    fn irregular_count(&self, mesh: &Mesh, working: &mut [u32]) -> CountAnswer {
        let mut answer = Oracle.irregular_count(mesh, working);
        if *self == CountsRegularVertices && answer.refusal == 0 {
            answer.count = mesh.vertex_count() as u64 - answer.count;
        }
        answer
    }

    fn millimetres(&self, coordinates: [i32; 3]) -> MillimetresAnswer {
        Oracle.millimetres(coordinates)
    }

    fn stored_counts(&self, bytes: &[u8]) -> CountsAnswer {
        let whole = Oracle.read(bytes, &mut Mesh::default());
        match (self, whole.refusal) {
            (LooksAtTheIndexWidth, 15) | (WantsTheWholeFile, 13) => whole,
            _ => Oracle.stored_counts(bytes),
        }
    }

    fn read(&self, bytes: &[u8], tables: &mut Mesh) -> CountsAnswer {
        let answer = Oracle.read(bytes, tables);
        if *self == ReadsBeforeTheLastCorner && answer.refusal == 4 {
            tables.vertices.iter_mut().take(1).for_each(|coordinate| *coordinate = 0);
        }
        answer
    }

    fn write(&self, mesh: &Mesh, buffer: &mut [u8]) -> CountAnswer {
        let answer = Oracle.write(mesh, buffer);
        if *self == WritesAByteMore && answer.refusal == 0 {
            buffer[answer.count as usize..].iter_mut().take(1).for_each(|byte| *byte = 0);
        }
        answer
    }

    fn refine_stored(&self, stored: &[u8], rounds: u32, result: &mut [u8]) -> i64 {
        Oracle.refine_stored(stored, rounds, result)
    }

    fn irregular_count_stored(&self, stored: &[u8]) -> i64 {
        Oracle.irregular_count_stored(stored)
    }
}

/// Failed and all cases of the groups whose names begin so.
fn run(kernel: Faulty, group: &str) -> (u64, u64) {
    let mut comparison = Comparison::new(&kernel, 1);
    GROUPS.iter().filter(|(name, _)| name.starts_with(group)).for_each(|(_, run)| run(&mut comparison));
    let tally = comparison.tally;
    if kernel == None {
        println!("{group}: {}", tally.refusal_line());
    }
    (tally.failed, tally.passed + tally.failed)
}

#[test]
fn the_oracle_passes_against_itself() {
    let groups = [
        "samples",
        "damaged",
        "third",
        "every",
        "checks",
        "irregular",
        "millimetres",
        "finished",
        "limits of rounds",
        "counts in headers",
        "reading",
        "writing",
        "C path",
        "noise",
    ];
    for group in groups {
        let (failed, cases) = run(None, group);
        assert!(failed == 0 && cases > 100, "{group}: {failed} of {cases} failed");
    }
}

#[test]
fn each_fault_is_found() {
    let faults = [
        (WritesBeyondTheUsedPart, "valid"),
        (WritesOnRefusal, "damaged"),
        (LeavesWorkingMemory, "samples"),
        (PleadsShortBufferEarly, "damaged"),
        (RoundsUpAtValenceThree, "third"),
        (RoundsUpAtValenceThree, "samples"),
        (CountsRegularVertices, "irregular"),
        (ReadsBeforeTheLastCorner, "reading damaged"),
        (WritesAByteMore, "writing"),
        (CountsRoundsBeforeIsolatedVertices, "finished counts"),
        (CountsFinishedBeyondTheRange, "limits of rounds"),
        (CountsSharedFacesTwice, "finished counts"),
        (LeavesNumbersOnRefusal, "every length for finished counts"),
        (LooksAtTheIndexWidth, "counts in headers"),
        (WantsTheWholeFile, "counts in headers"),
        (IsOfAnotherVersion, "finished counts"),
    ];
    for (fault, group) in faults {
        assert!(run(fault, group).0 > 0, "{fault:?} is not found by '{group}'");
    }
}
