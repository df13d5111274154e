//! `room` against files that are really made: every line of what it prints, and how many entries fit.
use crate::person::{program, said};
use crate::shaped::{word, Field, Part, Shaped};

/// What `room` prints of so many entries.
pub fn room(entries: u64, options: &[String], fields: &[Field]) -> String {
    let mut command = program();
    command.args(["room", "--entries", &entries.to_string()]);
    said(command.args(options).args(fields.iter().map(word))).done()
}

/// The numbers in a line that it prints, by the start of the line.
pub fn numbers(text: &str, start: &str) -> Vec<u64> {
    let line = text.lines().find_map(|line| line.strip_prefix(start));
    let line = line.unwrap_or_else(|| panic!("{start} in {text}"));
    let number = |word: &str| word.parse().expect("a number");
    line.split_whitespace().map(number).collect()
}

fn options(size: usize, [data, field]: [u64; 2], header_size: u64) -> Vec<String> {
    let size = size as u64;
    [
        ("--size", size),
        ("--data-cells", data),
        ("--field-cells", field),
        ("--header-size", header_size),
    ]
    .map(|(name, value)| format!("{name}={value}"))
    .to_vec()
}

/// Each line is what stands in the file, and the sum is where its objects end.
pub fn is_right(file: &Shaped, text: &str) {
    let entries = file.entries;
    let parts = file.parts();
    let names = ["DATA", "FIELD", "ENTRY", "global arrays", "arrays of DATA"];
    for (name, (objects, bytes, room)) in names.into_iter().zip(parts) {
        let line = numbers(text, name);
        assert_eq!(line[..2], [objects, bytes], "{name} of {entries} entries");
        if let [_, _, printed, most] = line[..] {
            assert_eq!(printed, room, "{name} of {entries} entries");
            assert!(room <= most, "{name} of {entries} entries");
        }
    }
    assert_eq!(numbers(text, "global arrays")[3], 2 * entries + 2);
    let objects: u64 = parts.iter().map(|part: &Part| part.0).sum();
    assert_eq!(numbers(text, "sum"), [objects + 2, file.end()]);
}

/// Fields that are always the same, that come in turn and that are always new, with long and short names
/// and values, after several counts of entries each.
#[test]
fn files_that_are_made() {
    let long = "L".repeat(64);
    let shapes: [(&[Field], [u64; 2], u64, &[u64]); 6] = [
        (&[("A", 0, Some(1))], [1, 1], 256, &[4_000]),
        (&[("MESSAGE", 40, None)], [256, 4], 272, &[4_000]),
        (
            &[
                ("LOT", 6, Some(40)),
                ("RESULT", 8, Some(3)),
                ("MESSAGE", 33, None),
            ],
            [1_024, 64],
            256,
            &[1_280, 2_500],
        ),
        (
            &[("A", 1, Some(256)), ("B", 2, Some(7)), ("C", 3, Some(900))],
            [31, 3],
            272,
            &[899, 900, 901, 1_800],
        ),
        (
            &[
                (&long, 200, Some(5)),
                ("M_1", 500, None),
                ("_N", 7, Some(1_000_000)),
            ],
            [64, 2],
            256,
            &[1_100],
        ),
        (&[("A", 1, Some(2)), ("B", 5, Some(1))], [9, 9], 272, &[]),
    ];
    for (fields, cells, header_size, more) in shapes {
        let size = 2 << 20;
        let mut file = Shaped::new(size, cells, header_size, fields);
        let options = options(size, cells, header_size);
        let mut counts = [&[1, 2, 3, 5, 6, 30, 31, 100, 1_000], more].concat();
        counts.sort();
        for entries in counts {
            file.grow(entries);
            let text = room(entries, &options, fields);
            assert_eq!(text.lines().count(), 8, "{text}");
            is_right(&file, &text);
        }
    }
}

/// How many entries `room` says that a file holds: as many are taken, and one more is 18.
fn holds(size: usize, cells: [u64; 2], header_size: u64, fields: &[Field]) -> u64 {
    let options = options(size, cells, header_size);
    let text = room(1_000_000, &options, fields);
    let start = format!("a file of {size} bytes holds ");
    let line = text.lines().last().and_then(|it| it.strip_prefix(&start));
    let (count, words) = line.and_then(|it| it.split_once(' ')).expect("a last line");
    let count: u64 = count.parse().expect("a number");
    let expected = match count {
        1 => "such entry",
        _ => "such entries",
    };
    assert_eq!(words, expected);
    let mut file = Shaped::new(size, cells, header_size, fields);
    file.grow(count);
    is_right(&file, &room(count, &options, fields));
    let refused = file.batch(1).expect_err("there is no room");
    assert_eq!((refused.refusal.number(), refused.index), (18, Some(0)));
    // Only with one more there is a last line.
    let lines = |entries| room(entries, &options, fields).lines().count();
    assert_eq!((lines(count), lines(count + 1)), (8, 9));
    count
}

#[test]
fn how_many_fit() {
    let shapes: [&[Field]; 4] = [
        &[("A", 0, Some(1))],
        &[
            ("LOT", 6, Some(10)),
            ("RESULT", 8, Some(3)),
            ("MESSAGE", 40, None),
        ],
        &[("LOT", 9, None), ("NOTE", 900, Some(4))],
        &[("A", 4_094, None), ("B", 4_000, None)],
    ];
    let small = shapes.map(|fields| holds(12 << 10, [1, 1], 256, fields));
    assert_eq!(small, [120, 40, 38, 1]);
    let longer = shapes.map(|fields| holds(100_000, [40, 3], 272, fields));
    assert_eq!(longer, [1_020, 375, 490, 11]);
    assert_eq!(holds(8 << 20, [8_192, 512], 272, shapes[3]), 989);
}

/// The smallest entries in the longest file, up to arrays of the greatest size.
#[test]
fn the_longest_file() {
    assert_eq!(holds(8 << 20, [1, 1], 256, &[("A", 0, Some(1))]), 78_629);
}
