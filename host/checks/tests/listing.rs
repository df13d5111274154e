//! The program `list`, as `rt` built it, against the worked example, the listings of real files and
//! the independent reading.
use checks::corpus;
use checks::generator::any::any;
use checks::generator::foreign;
use checks::generator::mutation::targeted;
use checks::generator::set_clock::{series, PLAIN};
use checks::generator::worked::{made, two_appends, LISTING};
use checks::program::list;
use checks::random::Random;
use reading::layout::MOST_BYTES;
use reading::listing::listing;
use reading::refusal::CLAUSES;

/// "For the two appends above it prints, in full"
#[test]
fn worked_example() {
    assert_eq!(list(&two_appends(0)), LISTING);
    assert_eq!(list(&two_appends(1)), LISTING);
}

/// "More than 65,536 bytes print `refused 2`", also of a file that opens.
#[test]
fn lengths() {
    let none = "seqnum realtime monotonic fields\nentries 0\n";
    assert_eq!(list(&[]), "refused 1\n");
    assert_eq!(list(&[0; 255]), "refused 1\n");
    assert_eq!(list(&[0; 256]), "refused 3\n");
    assert_eq!(list(&made(320, 0)), none);
    assert_eq!(list(&made(65_536, 0)), none);
    assert_eq!(list(&[0; 65_537]), "refused 2\n");
    assert_eq!(list(&made(65_544, 0)), "refused 2\n");
    assert_eq!(list(&made(MOST_BYTES as usize, 0)), "refused 2\n");
}

/// "any other refusal `refused` and its number": a damage for each clause.
#[test]
fn every_refusal() {
    for &clause in CLAUSES {
        let image = targeted(clause, &mut Random::new(clause.number));
        assert_eq!(list(&image), listing(&image), "{clause:?}");
    }
}

#[test]
fn real_files() {
    for (name, number) in corpus::FILES {
        let text = match number {
            0 => corpus::listing(name),
            _ => format!("refused {number}\n"),
        };
        assert_eq!(list(&corpus::image(name)), text, "{name}");
    }
}

/// Files whose clock was set: in the order of their entries.
#[test]
fn wall_times_that_fall() {
    for (what, times) in series() {
        let image = PLAIN.file(&times);
        let text = list(&image);
        assert_eq!(text, listing(&image), "{what}");
        let column = text
            .lines()
            .filter_map(|line| line.split(' ').nth(1)?.parse().ok());
        let listed: Vec<u64> = column.take(times.len()).collect();
        assert_eq!(listed, times, "{what}");
    }
}

/// Foreign objects are walked over: the text is the one without them.
#[test]
fn foreign_objects() {
    let mut image = two_appends(1);
    for kind in 8..=255 {
        let size = 17 + u64::from(kind) % 8;
        if foreign::put(&mut image, kind, size).is_some() {
            assert_eq!(list(&image), LISTING, "{kind}");
        }
    }
}

#[test]
fn images_of_every_kind() {
    let mut opened = 0;
    for seed in 0..600 {
        let image = any(&mut Random::new(seed));
        let text = list(&image);
        assert_eq!(text, listing(&image), "seed {seed}");
        opened += u64::from(text.starts_with("seqnum"));
    }
    assert!(opened > 100);
}
