//! The bench's tables.

/// What stands over a column, and how many digits its numbers have behind the point.
pub type Head = (&'static str, usize);

/// A line a row: its name, and a number a column.
pub fn print(heads: &[Head], rows: &[(String, Vec<f64>)]) {
    let line = |name: &str, cells: Vec<String>| println!("{name:34}{}", cells.concat());
    line("", heads.iter().map(|(head, _)| format!("{head:>17}")).collect());
    for (name, numbers) in rows {
        assert_eq!(numbers.len(), heads.len(), "{name}");
        let cells = heads.iter().zip(numbers);
        line(name, cells.map(|((_, digits), number)| format!("{number:>17.digits$}")).collect());
    }
}

/// How the times of the proved, of the same ideas by hand and of the fastest go up: each of a whole, each of a part, and the ratio of the first two.
pub fn growth(times: [f64; 3], wholes: f64, parts: f64) -> Vec<f64> {
    let of = |number: f64| times.map(|time| time / number);
    [&of(wholes)[..], &of(parts), &[times[0] / times[1]]].concat()
}
