//! The first table of the page for those who size cards: it is what the rule gives, and what is proved of
//! it. What the page shows of the command is tested with the command.
use std::path::Path;

use reading::layout::Layout;
use reading::sizing::{bytes, most_global, room};

const PAGE: &str = include_str!("../../../../docs/SIZING.md");

/// The numbers in the rows of the table under a heading.
fn rows(heading: &str) -> Vec<Vec<u64>> {
    let (_, section) = PAGE.split_once(heading).expect("the heading");
    let lines = section.lines().skip_while(|line| !line.starts_with('|'));
    let lines = lines.take_while(|line| line.starts_with('|')).skip(2);
    let number = |cell: &str| cell.trim().replace(',', "").parse().expect("a number");
    let cells = |line: &str| line.trim_matches('|').split('|').map(number).collect();
    lines.map(cells).collect()
}

/// The rows of five numbers in the proved list, each like `(5 ∷ 12 ∷ 12 ∷ 144 ∷ 96 ∷ [])`.
fn proved() -> Vec<Vec<u64>> {
    let path = "../../crates/chain_room/specs/Sizing.antt";
    let path = Path::new(env!("CARGO_MANIFEST_DIR")).join(path);
    let text = std::fs::read_to_string(&path)
        .unwrap_or_else(|error| panic!("{}: {error}", path.display()));
    let row = |line: &str| {
        let line = line.trim().trim_start_matches("∷ ");
        let numbers = line.strip_prefix('(')?.strip_suffix(" ∷ [])")?;
        let numbers: Result<Vec<u64>, _> = numbers.split(" ∷ ").map(str::parse).collect();
        numbers.ok()
    };
    text.lines().filter_map(row).collect()
}

#[test]
fn as_the_rule_gives_it() {
    let rows = rows("\n## How a chain grows\n");
    assert_eq!(rows.len(), 12);
    for row in &rows {
        let entries = row[0];
        let expected = [
            entries,
            room(entries),
            most_global(entries),
            bytes(Layout::Regular, entries),
            bytes(Layout::Compact, entries),
        ];
        assert_eq!(row[..], expected);
    }
    let rise = rows.windows(2).all(|two| two[0][0] < two[1][0]);
    assert!(rise, "no row is there twice");
}

#[test]
fn as_it_is_proved() {
    assert_eq!(rows("\n## How a chain grows\n"), proved());
}

/// "The chain of a DATA that n entries hold is the one of n - 1 entries", and the counts at which the bounds
/// are met.
#[test]
fn where_the_bounds_are_met() {
    let counts = |after: &str| -> Vec<u64> {
        let (_, rest) = PAGE.split_once(after).expect("the words");
        let (counts, _) = rest.split_once(", ..").expect("and so on");
        let counts = counts.split(", ");
        counts.map(|it| it.parse().expect("a number")).collect()
    };
    let met: Vec<u64> = (1..=61).filter(|&n| room(n) == most_global(n)).collect();
    assert_eq!(counts("The first is met at "), met);
    let met: Vec<u64> = (2..=62).filter(|&n| room(n - 1) == 2 * n).collect();
    assert_eq!(counts("the second at "), met);
}
