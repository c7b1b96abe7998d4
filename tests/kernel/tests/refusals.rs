//! Every refusal, alone and in its order, at every entry point (sections 7 and 9 of docs/SPECIFICATION.md).

use oracle::checks::{check_mesh, check_refining};
use oracle::entries::{Kernel, Lent, Oracle};
use oracle::generate::damage::{damage, KINDS};
use oracle::generate::files::header;
use oracle::generate::{lent, valid_mesh};
use oracle::listing::{listing, MOST_INPUT};
use oracle::mesh::{Counts, Mesh};
use oracle::random::Random;
use oracle::refusal::Refusal;
use oracle::samples::*;
use oracle::stored::{encode, encode_with_width};

fn refine(mesh: &Mesh, rounds: u32) -> u32 {
    Oracle.refine(mesh, rounds, &mut Lent::exactly([50, 50, 50, 50, 50])).refusal
}

#[test]
fn each_damage_alone_gives_its_number() {
    for kind in KINDS {
        let mut given = 0;
        for case in 0..60 {
            let mut random = Random::new(u64::from(kind) * 1000 + case);
            let mut mesh = valid_mesh(&mut random);
            if !damage(&mut mesh, kind, &mut random) {
                continue;
            }
            let refusal = check_mesh(&mesh, 8).err().map(Refusal::number);
            // A twisted quad on a face that is a quad already is doubled; a cut table need not loosen a vertex.
            let other = match kind {
                7 => refusal == Some(6),
                8 => refusal.is_none(),
                _ => false,
            };
            assert!(refusal == Some(kind) || other, "damage {kind} gave {refusal:?}");
            given += u32::from(refusal == Some(kind));
        }
        assert!(given > 15, "refusal {kind} was given only {given} times");
    }
}

#[test]
fn a_lower_number_comes_first() {
    for low in KINDS {
        for high in KINDS.into_iter().filter(|&high| high > low && low != 2) {
            let mut random = Random::new(u64::from(100 * low + high));
            let mut mesh = oracle::generate::lattice::blocks([2, 1, 1], || true);
            damage(&mut mesh, high, &mut random);
            if !damage(&mut mesh, low, &mut random) {
                continue;
            }
            let refusal = check_mesh(&mesh, 8).unwrap_err().number();
            assert!(refusal <= low, "{low} and {high} gave {refusal}");
        }
    }
}

#[test]
fn corner_sets_are_compared_whatever_the_order() {
    let mut twice = p8();
    twice.hexes.extend([7, 0, 6, 1, 5, 2, 4, 3]);
    assert_eq!(refine(&twice, 1), 6);
    let mut bow_tie = p7();
    bow_tie.quads.extend([0, 2, 1, 3]);
    assert_eq!(refine(&bow_tie, 1), 6);
    assert_eq!(refine(&Mesh { points: vec![0, 1, 0], ..p1() }, 1), 6);
    assert_eq!(refine(&Mesh { segments: vec![0, 1, 1, 0], ..p1() }, 1), 6);
}

#[test]
fn a_face_may_start_anywhere_and_go_either_way() {
    for (quad, refusal) in
        [([0, 1, 2, 3], 0), ([2, 1, 0, 3], 0), ([3, 0, 1, 2], 0), ([0, 2, 1, 3], 7), ([0, 1, 3, 2], 7)]
    {
        assert_eq!(refine(&Mesh { quads: quad.to_vec(), ..p8() }, 1), refusal);
    }
}

#[test]
fn the_limits_of_sizes_pass() {
    let points =
        |count: usize| Mesh { vertices: vec![0; 3 * count], points: (0..count as u32).collect(), ..Mesh::default() };
    assert_eq!(check_mesh(&points(250_000), 8), Ok(()));
    assert_eq!(check_mesh(&points(250_001), 8), Err(Refusal::CountOutOfRange));
    let vertices = |count: usize| Mesh { vertices: vec![0; 3 * count], ..Mesh::default() };
    assert_eq!(check_mesh(&vertices(1_000_000), 8), Err(Refusal::IsolatedVertex));
    assert_eq!(check_mesh(&vertices(1_000_001), 8), Err(Refusal::CountOutOfRange));
}

#[test]
fn rounds_and_finished_sizes_come_after_the_mesh() {
    let loose = Mesh { vertices: vec![0; 9], ..p1() };
    assert_eq!((refine(&loose, 255), refine(&p1(), 255), refine(&p1(), u32::MAX)), (8, 9, 9));
    assert_eq!((refine(&p8(), 5), refine(&p8(), 6), refine(&p8(), 9)), (11, 10, 9));
    assert_eq!(check_refining(&p8(), 5), Ok([35_937, 32_768, 0, 0, 0]));
}

#[test]
fn every_length_is_required_even_for_0_rounds() {
    for rounds in [0, 1] {
        let finished = check_refining(&p9(), rounds).unwrap();
        let needed = lent::needed_lengths(finished);
        for buffer in (0..lent::BUFFERS).filter(|&buffer| needed[buffer] > 0) {
            let mut lengths = needed;
            lengths[buffer] -= 1;
            let mut memory = lent::with_lengths(lengths, &mut Random::new(4));
            let before = memory.clone();
            assert_eq!(Oracle.refine(&p9(), rounds, &mut memory).refusal, 11);
            assert_eq!(memory.output, before.output);
            assert!(memory.numbers32.iter().all(|&number| number == 0) && memory.working.hexes.iter().all(|&c| c == 0));
        }
    }
}

/// The counts of an accepted answer, or the refusal; after a refusal the counts are 0 and the numbers zero all the same.
fn finished(mesh: &Mesh, rounds: u32) -> Result<[u32; 5], u32> {
    let mut numbers = [7; 9];
    let answer = Oracle.finished_counts(mesh, rounds, &mut numbers);
    assert_eq!(numbers, [0; 9]);
    assert!(answer.refusal == 0 || answer.counts == Counts::default());
    if answer.refusal == 0 {
        Ok(answer.counts.list())
    } else {
        Err(answer.refusal)
    }
}

#[test]
fn finished_counts_check_1_to_10_and_no_buffer() {
    assert_eq!(finished(&p8(), 0), Ok([8, 1, 0, 0, 0]));
    assert_eq!(finished(&p9(), 1), Ok([27, 8, 24, 0, 0]));
    assert_eq!(finished(&p8(), 5), Ok([35_937, 32_768, 0, 0, 0]));
    assert_eq!((finished(&p8(), 6), finished(&p8(), 9), finished(&p8(), u32::MAX)), (Err(10), Err(9), Err(9)));
    assert_eq!(finished(&Mesh { vertices: vec![0; 9], ..p1() }, 255), Err(8));
    assert_eq!(finished(&Mesh { vertices: vec![1; 4], ..p1() }, 9), Err(1));
    assert_eq!(finished(&Mesh { vertices: vec![], ..p1() }, 9), Err(2));
    assert_eq!(finished(&Mesh { vertices: vec![1 << 29; 3], ..p1() }, 9), Err(3));
    assert_eq!(finished(&Mesh { vertices: vec![1; 3], ..p1() }, 9), Err(4));
    assert_eq!(finished(&Mesh { segments: vec![0, 0], ..p1() }, 9), Err(5));
    assert_eq!(finished(&Mesh { segments: vec![0, 1, 1, 0], ..p1() }, 9), Err(6));
    assert_eq!(finished(&Mesh { quads: vec![0, 2, 1, 3], ..p8() }, 9), Err(7));
}

/// Whatever refining would answer with enough memory, the finished counts answer.
#[test]
fn finished_counts_are_what_refining_answers() {
    for case in 0..200 {
        let mut random = Random::new(3_300 + case);
        let mut mesh = valid_mesh(&mut random);
        if case % 3 == 0 {
            damage(&mut mesh, random.pick(&KINDS), &mut random);
        }
        let rounds = random.pick(&[0, 1, 9]);
        let places = check_refining(&mesh, rounds).unwrap_or([0; 5]);
        let answer = Oracle.refine(&mesh, rounds, &mut Lent::exactly(places));
        assert_eq!(finished(&mesh, rounds).err().unwrap_or(0), answer.refusal);
        assert_eq!(finished(&mesh, rounds).unwrap_or([0; 5]), answer.counts.list());
    }
}

#[test]
fn counts_in_a_header_check_13_14_2_alone() {
    let counts = |bytes: &[u8]| {
        let answer = Oracle.stored_counts(bytes);
        (answer.refusal, answer.counts.list())
    };
    let none = [0; 5];
    let good = encode(&p9());
    assert_eq!((counts(&good), counts(&good[..13])), ((0, [8, 1, 6, 0, 0]), (0, [8, 1, 6, 0, 0])));
    assert_eq!((counts(&good[..12]), counts(&[])), ((13, none), (13, none)));
    assert_eq!(counts(&[vec![0x20; 12], good.clone()].concat()), (14, none));
    assert_eq!(counts(&header(2, 31, [0; 5])), (14, none));
    assert_eq!(counts(&header(1, 31, [0; 5])), (2, none));
    assert_eq!(counts(&header(1, 31, [1_000_001, 0, 0, 0, 0])), (2, none));
    assert_eq!(counts(&header(1, 31, [1_000_000, 250_000, 1, 2, 250_000])), (0, [1_000_000, 250_000, 1, 2, 250_000]));
    assert_eq!(counts(&header(1, 0, [1, 0, 250_001, 0, 0])), (2, none));
}

fn read(bytes: &[u8], places: [usize; 5]) -> u32 {
    let answer = Oracle.read(bytes, &mut Mesh::zeros(places));
    assert!(answer.refusal == 0 || answer.counts == Counts::default());
    answer.refusal
}

#[test]
fn reading_keeps_its_order() {
    let (room, none) = ([10; 5], [0; 5]);
    let good = encode(&p1());
    let with = |change: &dyn Fn(&mut Vec<u8>)| {
        let mut bytes = good.clone();
        change(&mut bytes);
        read(&bytes, none)
    };
    assert_eq!((read(&good, room), read(&good, none), read(&good[..12], room)), (0, 11, 13));
    assert_eq!(with(&|b| b[0] ^= 0x30), 14);
    assert_eq!(
        with(&|b| {
            b[0] ^= 0x30;
            b.push(0)
        }),
        14
    );
    assert_eq!(
        with(&|b| {
            b.push(0);
            b[35] |= 1
        }),
        13
    );
    assert_eq!(with(&|b| b[35] |= 1), 16);
    assert_eq!(read(&header(1, 31, [0, 0, 0, 0, 0]), room), 2);
    assert_eq!(read(&header(1, 31, [1, 0, 0, 0, 250_001]), room), 2);
    assert_eq!(read(&header(1, 20, [1_000_001, 0, 0, 0, 0]), room), 2);
    assert_eq!(read(&header(1, 31, [1, 0, 0, 0, 0]), room), 15);
    assert_eq!(read(&header(1, 1, [1, 0, 0, 0, 0]), room), 13);
    assert_eq!(read(&encode_with_width(&p1(), 2), room), 15);
    let unknown = Mesh { points: vec![3], ..on_axis(&[1, 2, 3]) };
    assert_eq!(read(&encode(&unknown), none), 4);
}

#[test]
fn reading_and_writing_take_unsound_meshes() {
    for mesh in [on_axis(&[1, 2]), Mesh { segments: vec![0, 0, 1, 0, 0, 1], ..on_axis(&[5, 6]) }] {
        let mut buffer = vec![9; 100];
        let written = Oracle.write(&mesh, &mut buffer);
        let bytes = encode(&mesh);
        assert_eq!((written.refusal, written.count as usize), (0, bytes.len()));
        assert!(buffer.starts_with(&bytes) && buffer[bytes.len()..].iter().all(|&byte| byte == 9));
        assert_eq!(read(&bytes, [2, 0, 0, 3, 0]), 0);
    }
}

#[test]
fn writing_checks_1_to_4_then_11() {
    let write = |mesh: &Mesh, length: usize| Oracle.write(mesh, &mut vec![1; length]).refusal;
    assert_eq!((write(&p1(), 36), write(&p1(), 35), write(&p1(), 0)), (0, 11, 11));
    assert_eq!(write(&Mesh { vertices: vec![1; 4], ..p1() }, 0), 1);
    assert_eq!(write(&Mesh { vertices: vec![], ..p1() }, 0), 2);
    assert_eq!(write(&Mesh { vertices: vec![1 << 29; 3], ..p1() }, 0), 3);
    assert_eq!(write(&Mesh { vertices: vec![1; 3], ..p1() }, 0), 4);
}

#[test]
fn the_c_path_reads_refines_and_writes() {
    let refine =
        |mesh: &Mesh, rounds: u32, length: usize| Oracle.refine_stored(&encode(mesh), rounds, &mut vec![0; length]);
    assert_eq!((refine(&p1(), 0, 36), refine(&p1(), 0, 35), refine(&p1(), 9, 0)), (36, -11, -9));
    assert_eq!((refine(&p8(), 1, 1000), refine(&p8(), 2, 10_000), refine(&p8(), 3, 10_000)), (357, 1867, -11));
    assert_eq!(refine(&on_axis(&vec![0; 1001]), 0, 10_000), -11);
    assert_eq!(refine(&on_axis(&[0]), 0, 10_000), -8);
    assert_eq!(Oracle.irregular_count_stored(&encode(&p1())), 2);
    assert_eq!(Oracle.irregular_count_stored(&[]), -13);
    assert_eq!(Oracle.irregular_count_stored(&encode(&on_axis(&[0]))), -8);
}

#[test]
fn millimetres_are_exact_and_check_3_alone() {
    let answer = Oracle.millimetres([1, -1024, 536_870_911]);
    assert_eq!((answer.position.x, answer.position.y, answer.position.z), (0.0009765625, -1.0, 524_287.999_023_437_5));
    let far = Oracle.millimetres([1, 2, 536_870_912]);
    assert_eq!((far.refusal, far.position.x, far.position.z), (3, 0.0, 0.0));
}

#[test]
fn the_listing_refuses_in_order() {
    let run = |rounds: u8, stored: &[u8]| listing(&[&[rounds], stored].concat());
    assert_eq!((listing(&[]), run(1, &[])), ("refused 13\n".into(), "refused 13\n".into()));
    assert_eq!(run(1, &vec![0; MOST_INPUT - 1]), "refused 14\n");
    assert_eq!(run(1, &vec![0; MOST_INPUT]), "refused 11\n");
    assert_eq!(run(9, &encode(&p1())), "refused 9\n");
    assert_eq!(run(3, &encode(&p8())), "refused 11\n");
    assert_eq!(run(0, &encode(&p12())).lines().nth(5), Some("v 4 1024 1024 0 2 4"));
}
