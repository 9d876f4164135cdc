//! The query files of examples/ are what their texts say.

use second::bodies::{answer, Bodies, BodiesAnswer, Body};
use std::fs;
use std::path::Path;

#[test]
fn each_example_is_its_text() {
    let examples = Path::new(env!("CARGO_MANIFEST_DIR")).join("../examples");
    let mut seen = 0;
    for entry in fs::read_dir(examples).expect("examples/ is there") {
        let path = entry.expect("it can be listed").path();
        if path.extension().is_some_and(|e| e == "txt") {
            let text = fs::read(&path).expect("a text");
            let file = fs::read(path.with_extension("query")).expect("its query file");
            assert_eq!(second::script::write(&text), Ok(file), "{}", path.display());
            seen += 1;
        }
    }
    assert!(seen >= 9);
}

fn bytes_of(name: &str) -> Vec<u8> {
    let path = Path::new(env!("CARGO_MANIFEST_DIR")).join("../examples").join(name);
    fs::read(path).expect("its query file")
}

/// What sweep prints of an example.
fn swept(name: &str) -> String {
    second::text::sweep(&bytes_of(name), 4096)
}

#[test]
fn swell_is_answered_by_each_axis() {
    let expected = "\
1 MET 0 0 0 0 1
2 CLEAR 0 0 0 0 1
3 MET 0 0 0 0 1
4 CLEAR 0 0 0 0 1
5 MET 524288 0 0 100 3
TOTAL 5 MET 3 CLEAR 2 SPENT 0 ROOM 0 FLOOR 0 REFUSED 0
";
    assert_eq!(swept("swell.query"), expected);
}

#[test]
fn height_is_answered_the_same_on_every_axis() {
    let expected = "\
1 MET 262144 0 0 500 5
2 MET 262144 0 0 500 5
3 MET 262144 0 0 500 5
4 CLEAR 0 0 0 0 1
5 MET 0 0 0 800 1
6 CLEAR 0 0 0 0 1
7 MET 0 0 0 100 1
8 CLEAR 0 0 0 0 1
9 CLEAR 0 0 0 0 10
TOTAL 9 MET 5 CLEAR 4 SPENT 0 ROOM 0 FLOOR 0 REFUSED 0
";
    assert_eq!(swept("height.query"), expected);
}

#[test]
fn long_berth_goes_by_the_longer_range() {
    let expected = "\
1 MET 622592 311296 311296 50 583
2 CLEAR 0 0 0 0 1
3 REFUSED 5
TOTAL 3 MET 1 CLEAR 1 SPENT 0 ROOM 0 FLOOR 0 REFUSED 1
";
    assert_eq!(swept("long-berth.query"), expected);
    assert!(swept("first.query").starts_with("7 MET 622592 311296 311296 50 583\n"));
}

#[test]
fn cap_is_answered_up_to_each_moment() {
    let expected = "\
1 MET 622592 311296 311296 50 225
2 MET 622592 311296 311296 50 89
3 CLEAR 0 0 0 0 60
4 MET 622592 311296 311296 50 583
5 MET 622592 311296 311296 50 583
6 REFUSED 22
TOTAL 6 MET 4 CLEAR 1 SPENT 0 ROOM 0 FLOOR 0 REFUSED 1
";
    assert_eq!(swept("cap.query"), expected);
}

/// The same bytes with an edition's number in the trailer: 16 is a tolerance there, and the coordinates are none.
#[test]
fn long_berth_is_too_far_for_edition_2() {
    let mut file = bytes_of("long-berth.query");
    let edition = file.len() - 12;
    file[edition] = 2;
    let expected = "\
1 REFUSED 3
2 REFUSED 3
3 REFUSED 3
TOTAL 3 MET 0 CLEAR 0 SPENT 0 ROOM 0 FLOOR 0 REFUSED 3
";
    assert_eq!(second::text::sweep(&file, 4096), expected);
}

const METRE: i32 = 8000;

/// Two triangles of a rectangle: its corners in order round it.
fn rectangle(corners: [[i32; 3]; 4]) -> Vec<i32> {
    [0, 1, 2, 0, 2, 3].iter().flat_map(|&n| corners[n]).collect()
}

/// The box of examples/c/gangway.c, side by side, with its near lower corner there: 4 m by 1 m by 30 cm.
fn gangway(near: [i32; 3]) -> Vec<i32> {
    let far = [near[0] + 4 * METRE, near[1] + METRE, near[2] + 3 * METRE / 10];
    let side = |axis: usize, at: i32| {
        let (u, v) = ([1, 0, 0][axis], [2, 2, 1][axis]);
        let corner = |far_u: bool, far_v: bool| {
            let mut corner = near;
            corner[axis] = at;
            corner[u] = if far_u { far[u] } else { near[u] };
            corner[v] = if far_v { far[v] } else { near[v] };
            corner
        };
        rectangle([
            corner(false, false),
            corner(true, false),
            corner(true, true),
            corner(false, true),
        ])
    };
    [2, 1, 0]
        .iter()
        .flat_map(|&axis| [side(axis, near[axis]), side(axis, far[axis])].concat())
        .collect()
}

/// Its deck of 10 m by 8 m at a height, with a bulwark of 1 m along the far side.
fn hull(height: i32) -> Vec<i32> {
    let at = |x: i32, y: i32, z: i32| [x * METRE, y * METRE, z * METRE + height];
    let deck = rectangle([at(-2, -4, 0), at(8, -4, 0), at(8, 4, 0), at(-2, 4, 0)]);
    let bulwark = rectangle([at(8, -4, 0), at(8, 4, 0), at(8, 4, 1), at(8, -4, 1)]);
    [deck, bulwark].concat()
}

#[test]
fn the_gangway_of_the_c_example_is_answered_as_it_prints() {
    let (a_start, a_end) = (
        gangway([-METRE, -METRE / 2, 3 * METRE / 2]),
        gangway([-METRE / 2, -METRE / 2, METRE / 4]),
    );
    let (b_start, b_end) = (hull(0), hull(METRE / 2));
    let bodies = Bodies {
        edition: 2,
        a: Body { count: 12, start: &a_start, end: &a_end },
        b: Body { count: 4, start: &b_start, end: &b_end },
        separations: [80, 80, 400],
        tolerance: 160,
        budget: 10000,
    };
    let BodiesAnswer::Least(l) = answer(&bodies, 4096) else { panic!("no time") };
    let line = format!(
        "{} at {}/1048576, triangle {} of the gangway with {} of the hull, query {}, excess {}, {} boxes\n",
        ["REFUSED", "MET", "CLEAR", "SPENT", "ROOM", "FLOOR"][l.word as usize],
        l.t, l.a, l.b, l.query, l.excess, l.count
    );
    let path = Path::new(env!("CARGO_MANIFEST_DIR")).join("../examples/c/gangway.stdout");
    assert_eq!(line, fs::read_to_string(path).expect("what it prints"));
}
