//! Entries with payloads of every kind, in files of every form: what an append takes, and what only other
//! writers bring.
use super::asking::{Tried, SOME};
use super::cases::{all, Case};
use checks::against::exchange::Written;
use checks::generator::faulty::sample::forms;
use checks::generator::holding::{holding, Held};
use checks::generator::texts::{closed, line, STAMPS};
use reading::exchange::Stamps;
use reading::image::name_of;
use reading::layout::Layout;

/// The text of the stamps and these fields.
fn whole(fields: &[Vec<u8>]) -> Vec<u8> {
    let stamps = STAMPS.map(|(name, value)| line(name, value));
    closed(&[&stamps[..], fields].concat())
}

fn expected(case: &Case) -> Written {
    case.1
        .as_ref()
        .map(|fields| Some(whole(fields)))
        .map_err(|it| *it)
}

/// Each in a file of its own, in which its payloads stand in this order.
#[test]
fn alone() {
    let mut tried = Tried::default();
    for (form, n) in forms().zip(0..) {
        for case in all().iter().skip(n % 3).step_by(3) {
            let image = holding(form, &[(SOME, case.0.clone())]);
            assert_eq!(tried.entries(&image), [expected(case)]);
        }
    }
    tried.print("payloads of every kind");
    assert!(tried.written[0] > 250 && tried.written[16] > 250);
}

/// All in one file, where entries share payloads: each is written in the order of its items.
#[test]
fn together() {
    let mut tried = Tried::default();
    let cases = all();
    let stamped = |(n, case): (usize, &Case)| {
        let stamps = Stamps {
            realtime: (n as u64) << 40,
            monotonic: u64::MAX - n as u64,
            boot_id: [n as u8; 16],
        };
        (stamps, case.0.clone())
    };
    let entries: Vec<Held> = cases.iter().enumerate().map(stamped).collect();
    for form in [(Layout::Regular, 256, true), (Layout::Compact, 272, false)] {
        let image = holding(form, &entries);
        let written = tried.entries(&image);
        assert_eq!(written.len(), cases.len());
        for (written, case) in written.iter().zip(&cases) {
            assert_eq!(written.as_ref().err(), case.1.as_ref().err());
        }
    }
    tried.print("payloads of every kind in one file");
}

/// Without a file: the same text of the same payloads, each given once and in this order.
#[test]
fn given() {
    let mut tried = Tried::default();
    for case in all() {
        let payloads: Vec<&[u8]> = case.0.iter().map(|it| &it[..]).collect();
        assert!(payloads.iter().all(|it| name_of(it).is_some()));
        let fields = reading::request::packed(&payloads);
        assert_eq!(tried.text(&SOME, &fields), expected(&case));
    }
    tried.print("payloads of every kind without a file");
}
