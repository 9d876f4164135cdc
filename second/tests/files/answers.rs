//! the answer file, by the worked rows: bytes, refusals 8 to 14 and 16, and what a writer leaves alone.

use second::answer_file::text::tell;
use second::answer_file::{
    bytes, check, file_of, open, read, told_at, write, write_trailer, Opened, EDITION, MARK,
};
use second::file::trailer;
use second::refusals::Refusal;
use second::told::Told;

/// The four answers of the rows.
pub const FOUR: [Told; 4] = [
    [1, 1, 262_144, 0, 0, 500, 5, 0],
    [2, 2, 0, 0, 0, 0, 10, 0],
    [3, 3, 0, 0, 0, 1000, 4, 0],
    [4, 0, 0, 0, 0, 0, 0, 5],
];

fn hex(bytes: &[u8]) -> String {
    bytes.iter().map(|byte| format!("{byte:02x}")).collect()
}

/// The four records and their trailer, by the writers, behind so many bytes.
fn written(leading: usize) -> Vec<u8> {
    let mut log = vec![0xA5; leading + 4 * 32 + 16];
    for (n, told) in FOUR.iter().enumerate() {
        write(&mut log, leading + 32 * n, told).unwrap();
    }
    write_trailer(&mut log, leading + 128, 4).unwrap();
    log
}

#[test]
fn rows_of_bytes() {
    let rows = [
        "0100000001000000000004000000000000000000f40100000500000000000000",
        "0200000002000000000000000000000000000000000000000a00000000000000",
        "0300000003000000000000000000000000000000e80300000400000000000000",
        "0400000000000000000000000000000000000000000000000000000005000000",
        "41454e44010000008000000004000000",
    ];
    assert_eq!(hex(&written(0)), rows.concat());
    assert_eq!(file_of(&FOUR), written(0));
    assert_eq!(hex(&file_of(&[])), "41454e44010000000000000000000000");
}

#[test]
fn what_was_written_is_read_back() {
    for leading in [0, 1, 31, 32, 33, 300] {
        let log = written(leading);
        assert_eq!(open(&log), Ok(Opened { first: leading, count: 4 }));
        for (n, told) in (0..).zip(FOUR) {
            assert_eq!(read(&log, n), Ok(told));
        }
        assert_eq!(read(&log, 4), Err(Refusal::Index));
        assert_eq!(read(&log, u32::MAX), Err(Refusal::Index));
        assert!(log[..leading].iter().all(|byte| *byte == 0xA5));
    }
}

/// The worked rows of 16, and each end of a field beside the number one beyond it.
const FINE: [Told; 10] = [
    [1, 1, 1_048_575, 0, 0, u32::MAX, 1_000_000, 0],
    [1, 3, 0, 1_048_575, 0, 0, 1, 0],
    [1, 4, 0, 0, 1_048_575, 0, 1, 0],
    [9, 0, 0, 0, 0, 0, 0, u32::MAX],
    [9, 0, 0, 0, 0, 0, 0, 1],
    [1, 5, 3, 0, 0, 4, 9, 0],
    [u32::MAX, 2, 0, 0, 0, 0, 1, 0],
    [0, 2, 0, 0, 0, 0, 1_000_000, 0],
    [0, 1, 0, 0, 0, 0, 1, 0],
    [0, 5, 1_048_575, 1_048_575, 1_048_575, 1, 1, 0],
];
const REFUSED: [Told; 22] = [
    [1, 6, 0, 0, 0, 0, 1, 0],
    [1, u32::MAX, 0, 0, 0, 0, 1, 0],
    [1, 1, 1_048_576, 0, 0, 0, 1, 0],
    [1, 3, 0, 1_048_576, 0, 0, 1, 0],
    [1, 4, 0, 0, 1_048_576, 0, 1, 0],
    [1, 5, u32::MAX, 0, 0, 0, 1, 0],
    [1, 1, 0, 0, 0, 0, 0, 0],
    [1, 2, 0, 0, 0, 0, 0, 0],
    [1, 1, 0, 0, 0, 0, 1_000_001, 0],
    [1, 2, 0, 0, 0, 0, 1_000_001, 0],
    [1, 2, 0, 0, 0, 1, 5, 0],
    [1, 2, 1, 0, 0, 0, 5, 0],
    [1, 2, 0, 1, 0, 0, 5, 0],
    [1, 2, 0, 0, 1, 0, 5, 0],
    [1, 2, 0, 0, 0, 0, 5, 1],
    [1, 1, 0, 0, 0, 0, 1, 7],
    [9, 0, 0, 0, 0, 0, 0, 0],
    [9, 0, 0, 0, 0, 0, 1, 5],
    [9, 0, 1, 0, 0, 0, 0, 5],
    [9, 0, 0, 1, 0, 0, 0, 5],
    [9, 0, 0, 0, 1, 0, 0, 5],
    [9, 0, 0, 0, 0, 1, 0, 5],
];

#[test]
fn rows_of_sixteen() {
    for told in FINE {
        assert_eq!(check(&told), Ok(()), "{told:?}");
        let log = file_of(&[told]);
        assert_eq!(read(&log, 0), Ok(told));
    }
    for told in REFUSED {
        assert_eq!(check(&told), Err(Refusal::Word), "{told:?}");
        let log = file_of(&[FOUR[0], told]);
        assert_eq!(open(&log).map(|opened| opened.count), Ok(2));
        assert_eq!([read(&log, 0), read(&log, 1)], [Ok(FOUR[0]), Err(Refusal::Word)]);
        assert_eq!(told_at(&log, 1), Ok(told));
        assert_eq!(read(&log, 2), Err(Refusal::Index));
    }
}

/// 16 as the request's sentence has it.
fn is_refused([_, word, t, u, v, excess, count, number]: Told) -> bool {
    let unused = match word {
        0 => t | u | v | excess | count,
        2 => t | u | v | excess | number,
        _ => number,
    };
    word > 5
        || t > 1_048_575
        || u > 1_048_575
        || v > 1_048_575
        || word != 0 && (count == 0 || count > 1_000_000)
        || word == 0 && number == 0
        || unused != 0
}

#[test]
fn sixteen_is_the_sentence() {
    let numbers = [0, 1, 1_000_000, 1_000_001, 1_048_575, 1_048_576, u32::MAX];
    let all = numbers.len().pow(6);
    for n in 0..7 * all {
        let field = |place: u32| numbers[n / numbers.len().pow(place) % numbers.len()];
        let word = (n / all) as u32;
        let told = [9, word, field(0), field(1), field(2), field(3), field(4), field(5)];
        assert_eq!(check(&told).is_err(), is_refused(told), "{told:?}");
    }
}

#[test]
fn sixteen_comes_before_room() {
    let (wrong, fine) = ([1, 6, 0, 0, 0, 0, 1, 0], [1, 2, 0, 0, 0, 0, 1, 0]);
    for (length, at) in [(31, 0), (32, 1), (32, 32), (40, usize::MAX), (0, 0)] {
        let mut log = vec![0xFF; length];
        assert_eq!(write(&mut log, at, &wrong), Err(Refusal::Word));
        assert_eq!(write(&mut log, at, &fine), Err(Refusal::Space));
        assert_eq!(log, vec![0xFF; length]);
    }
}

#[test]
fn writers_change_their_bytes_only() {
    let mut log = vec![0xFF; 60];
    write(&mut log, 28, &FOUR[0]).unwrap();
    assert!(log[..28].iter().all(|byte| *byte == 0xFF));
    assert_eq!(log[28..], bytes(&FOUR[0]));
    let mut log = vec![0xFF; 60];
    write_trailer(&mut log, 40, 1).unwrap();
    assert!(log[..40].iter().chain(&log[56..]).all(|byte| *byte == 0xFF));
    assert_eq!(hex(&log[40..56]), "41454e44010000002000000001000000");
}

#[test]
fn refused_trailer_writes() {
    let cases = [
        (44, 1, Ok(())),
        (45, 1, Err(Refusal::Space)),
        (61, 0, Err(Refusal::Space)),
        (usize::MAX, 4096, Err(Refusal::Space)),
        (31, 1, Err(Refusal::Back)),
        (63, 2, Err(Refusal::Back)),
        (64, 2, Err(Refusal::Space)),
        (0, 4096, Err(Refusal::Back)),
        (0, 4097, Err(Refusal::Count)),
        (usize::MAX, u32::MAX, Err(Refusal::Count)),
    ];
    for (at, count, expected) in cases {
        let mut log = vec![0xFF; 60];
        assert_eq!(write_trailer(&mut log, at, count), expected);
        assert_eq!(log == vec![0xFF; 60], expected.is_err());
    }
}

#[test]
fn every_byte_of_the_trailer_matters() {
    let whole = written(7);
    let at = whole.len() - 16;
    for length in 0..16 {
        assert_eq!(open(&whole[whole.len() - length..]), Err(Refusal::Short));
    }
    for place in 0..16 {
        for flip in 1..=255 {
            let mut log = whole.clone();
            log[at + place] ^= flip;
            let count = u32::from(log[at + 12]) + 256 * u32::from(log[at + 13]);
            let expected = match place {
                0..=3 => Refusal::Mark,
                4..=7 => Refusal::Edition,
                12 | 13 if count <= 4096 => Refusal::Back,
                12..=15 => Refusal::Count,
                _ => Refusal::Back,
            };
            assert_eq!(open(&log), Err(expected), "{place} {flip}");
            assert_eq!(read(&log, 9), Err(expected));
        }
    }
}

#[test]
fn count_and_back_pointer() {
    let end_with = |before: usize, back: u32, count: u32| {
        let trailer = trailer::bytes(MARK, EDITION, back, count);
        open(&[vec![0; before], trailer.to_vec()].concat())
    };
    assert_eq!(end_with(131_072, 131_072, 4096), Ok(Opened { first: 0, count: 4096 }));
    assert_eq!(end_with(131_104, 131_104, 4097), Err(Refusal::Count));
    assert_eq!(end_with(131_071, 131_072, 4096), Err(Refusal::Back));
    assert_eq!(end_with(64, 32, 2), Err(Refusal::Back));
    assert_eq!(end_with(65, 64, 2), Ok(Opened { first: 1, count: 2 }));
    assert_eq!(end_with(200, 1, 0), Err(Refusal::Back));
}

#[test]
fn tell_prints_the_lines_of_sweep() {
    let text = "\
1 MET 262144 0 0 500 5
2 CLEAR 0 0 0 0 10
3 SPENT 0 0 0 1000 4
4 REFUSED 5
TOTAL 4 MET 1 CLEAR 1 SPENT 1 ROOM 0 FLOOR 0 REFUSED 1
";
    assert_eq!(tell(&written(0)), text);
    assert_eq!(tell(&written(33)), text);
    let number = "9 REFUSED 4294967295\nTOTAL 1 MET 0 CLEAR 0 SPENT 0 ROOM 0 FLOOR 0 REFUSED 1\n";
    assert_eq!(tell(&file_of(&[FINE[3]])), number);
    for (log, refused) in [
        (file_of(&[FOUR[0], REFUSED[0]]), "FILE 16\n"),
        (vec![0; 15], "FILE 8\n"),
        (written(0)[..143].to_vec(), "FILE 9\n"),
        ([vec![0; 262_144 - 144], written(0)].concat(), text),
        ([vec![0; 262_145 - 144], written(0)].concat(), "FILE 15\n"),
    ] {
        assert_eq!(tell(&log), refused);
    }
}
