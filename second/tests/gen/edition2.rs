//! The generators of edition 2, and that those of editions 1 and 2 still make what they made.

use crate::common::{files, records};
use second::edition::{Edition, Range};
use second::file::{open, TRAILER_BYTES};
use second::gen::{flavours, generate, queries::queries};
use second::record::Record;
use second::refusals::{check_record, Refusal};
use second::text::sweep;

const SEEDS: u64 = 40;

/// FNV-1a of the files of seeds 1 to 3, behind each other, in edition 1 and in edition 2, as they were before there was a later one;
/// those of edition 2 with refused records among them as they are since its word at 28 is a cap.
const BEFORE: [(&str, [u64; 2]); 17] = [
    ("tiny", [0x636F_7EAB_D5F6_D6BA, 0x7587_0C8E_4C2D_98D7]),
    ("full", [0xE322_00FE_2E89_4355, 0x9601_DF95_4808_8383]),
    ("degenerate", [0xB136_180E_19AC_F261, 0x68EF_1FE0_BD3B_2A4D]),
    ("extreme", [0x1FD9_A758_C4C3_5BA6, 0xCBA5_24E6_0DF5_CA88]),
    ("mixed", [0x7065_5F54_C5B3_634B, 0xA109_FBBC_0C72_B770]),
    ("budget", [0x80E8_AC28_E8C8_76F5, 0xE5C2_E6F9_7889_DE70]),
    ("queue", [0x78B9_2E89_155F_A43D, 0xCFCE_3497_43AC_F605]),
    ("refusals", [0x245B_1F5D_3F3F_5E2B, 0x322C_9CC9_23E0_3F99]),
    ("damaged", [0xB200_3575_CC5B_0822, 0xB388_B39F_3A04_D066]),
    ("truncated", [0x3431_5B38_9D9C_0073, 0x90EF_71E5_609D_8656]),
    ("many", [0x3B3E_7E1B_36E5_D5BC, 0xA31D_8560_4FED_EE6E]),
    ("most", [0x1B73_1C98_330F_D621, 0xA4D4_1AA8_69BA_2184]),
    ("edge65536", [0xD537_B9CD_AB79_4E07, 0x5B9F_0172_F6FE_37D9]),
    ("edge65537", [0x203B_B943_4DD7_7CDD, 0x9D38_87B4_F71A_057F]),
    ("empty", [0x8772_6BD5_5B40_2295, 0xA5E1_450A_7164_08CB]),
    ("leading", [0xCF75_57BA_B280_574F, 0x99DD_E374_B807_FD90]),
    ("one", [0x781D_308B_7871_180C, 0x28AE_5132_1376_7385]),
];

fn fnv(bytes: &[u8]) -> u64 {
    let step = |hash: u64, byte: &u8| (hash ^ u64::from(*byte)).wrapping_mul(0x0000_0100_0000_01B3);
    bytes.iter().fold(0xCBF2_9CE4_8422_2325, step)
}

fn all_records(flavour: &str) -> Vec<Record> {
    files(flavour, SEEDS).iter().flat_map(|file| records(file)).collect()
}

fn number(record: &Record) -> u32 {
    check_record(record, Range::SHORTER).map_or_else(Refusal::number, |()| 0)
}

/// The flavours in their three editions; damage may turn the edition, otherwise the name says it.
fn triples() -> Vec<[&'static str; 3]> {
    let mut flavours = flavours();
    // Edition 1 has no caps.
    flavours.retain(|name| !name.starts_with("cap"));
    flavours.chunks(3).map(|names| names.try_into().expect("three editions each")).collect()
}

#[test]
fn files_of_editions_1_and_2_are_what_they_were() {
    for (flavour, hashes) in BEFORE {
        let names = triples().into_iter().find(|names| names[0] == flavour).expect("a flavour");
        for (name, hash) in names.into_iter().zip(hashes) {
            let file = |seed| generate(seed, name).unwrap();
            assert_eq!(fnv(&[file(1), file(2), file(3)].concat()), hash, "{name}");
        }
    }
}

#[test]
fn every_flavour_is_made_in_every_edition() {
    assert_eq!(triples().len(), BEFORE.len() + 1);
    for names in triples() {
        for (name, number) in names.into_iter().zip(["", "2", "3"]) {
            assert!(name.starts_with(names[0]) && name.ends_with(number));
        }
        let damage = ["damaged", "truncated", "edge65536", "edge65537"].contains(&names[0]);
        for (flavour, edition) in names.iter().zip(Edition::ALL) {
            let opened =
                files(flavour, 16).iter().filter_map(|file| open(file).ok()).collect::<Vec<_>>();
            assert!(!opened.is_empty(), "{flavour}");
            assert!(damage || opened.iter().all(|opened| opened.edition == edition), "{flavour}");
        }
    }
}

#[test]
fn separations_differ_behind_edition_1() {
    for flavour in ["tiny", "full", "degenerate", "extreme", "budget", "queue", "mixed"] {
        let differing = |flavour: &str| {
            let records = all_records(flavour);
            let differ = |r: &&Record| r.separations != [r.separations[0]; 3];
            (records.iter().filter(differ).count(), records.len())
        };
        assert_eq!(differing(flavour).0, 0);
        for flavour in ["2", "3"].map(|number| format!("{flavour}{number}")) {
            let (differ, all) = differing(&flavour);
            assert!(4 * differ >= all && differ < all, "{flavour}: {differ} of {all}");
        }
    }
}

#[test]
fn refusals_of_edition_2_stand_alone_and_together() {
    let records = all_records("refusals2");
    for n in [1, 2, 3, 4, 5, 6, 22] {
        assert!(records.iter().any(|record| number(record) == n), "{n}");
    }
    for axis in 0..3 {
        let only = |r: &Record| {
            number(r) == 4
                && [0, 1, 2].map(|n| r.separations[n] > 65_536) == [0, 1, 2].map(|n| n == axis)
        };
        assert!(records.iter().any(only), "{axis}");
    }
    assert!(all_records("refusals").iter().all(|record| record.cap == 0));
}

#[test]
fn damage_crosses_the_editions() {
    let files = files("damaged2", 400);
    let numbers = |of: &dyn Fn(&[u8]) -> bool| {
        let of: Vec<&Vec<u8>> = files.iter().filter(|file| of(file)).collect();
        let mut numbers: Vec<u32> =
            of.iter().map(|file| open(file).map_or_else(Refusal::number, |_| 0)).collect();
        numbers.sort();
        numbers.dedup();
        numbers
    };
    let byte = |file: &[u8]| file[file.len() - TRAILER_BYTES + 4];
    assert_eq!(numbers(&|_| true), [0, 9, 10, 11, 12]);
    for edition in [1, 2] {
        assert!([0, 12].iter().all(|n| numbers(&|file| byte(file) == edition).contains(n)));
    }
    for edition in [0, 255] {
        assert!(numbers(&|file| byte(file) == edition).contains(&10));
    }
    // Edition 3 has edition 2's size.
    assert!([0, 12].iter().all(|n| numbers(&|file| byte(file) == 3).contains(n)));
}

#[test]
fn sizes_are_exact() {
    let most = generate(1, "most2").unwrap();
    assert_eq!(most.len(), 511 * 128 + 16);
    assert!(sweep(&most, 4096).contains("TOTAL 511 "));
    let many = generate(1, "many2").unwrap();
    assert_eq!((open(&many).unwrap().count, many.len()), (4096, 4096 * 128 + 16));
    for (flavour, length) in [("edge65536-2", 65_536), ("edge65537-2", 65_537)] {
        assert!(files(flavour, 8).iter().all(|file| file.len() == length));
    }
}

#[test]
fn few_queries_bring_what_edition_2_adds() {
    let mut refused_caps = 0;
    for seed in 1..=5 {
        let text = queries(seed, 60, Edition::Two);
        let lines: Vec<Vec<i64>> = text
            .lines()
            .map(|line| line.split(' ').map(|n| n.parse().unwrap()).collect())
            .collect();
        let number = |of: fn(&&Vec<i64>) -> bool| lines.iter().filter(of).count();
        assert!(number(|line| line[36] > 0 && line[6] != line[7] && line[7] != line[8]) >= 15);
        assert!(number(|line| line[36] > 0 && line[6] == line[7] && line[7] == line[8]) >= 5);
        assert!(number(|line| line[11] != 0 && line[36] > 0) >= 5);
        refused_caps += number(|line| line[42] == 22);
    }
    assert!(refused_caps >= 5);
}
