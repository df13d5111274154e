//! The stamps in a text: each once, in either form, at any place.
use super::asking::{Tried, SOME};
use checks::generator::texts::{closed, counted, line, STAMPS};
use reading::import::Entry;
use reading::refusal::clause::*;
use reading::request::packed;

/// How a field is written.
pub type Form = fn(&[u8], &[u8]) -> Vec<u8>;
pub const FORMS: [Form; 2] = [line, counted];

/// Every order of the stamps and one field, each in either form.
#[test]
fn at_any_place() {
    let mut tried = Tried::default();
    let all = [STAMPS[0], STAMPS[1], STAMPS[2], (&b"A"[..], &b"1"[..])];
    for order in 0..256 {
        let places = [0, 2, 4, 6].map(|shift| order >> shift & 3);
        if (0..4).any(|place| !places.contains(&place)) {
            continue;
        }
        for forms in 0..16 {
            let field = |place: usize| FORMS[forms >> place & 1](all[place].0, all[place].1);
            let expected = Entry {
                stamps: SOME,
                fields: packed(&[b"A=1"]),
            };
            let text = closed(&places.map(field));
            assert_eq!(tried.import(&text), Ok(expected));
        }
    }
    tried.print("stamps at any place");
    assert_eq!(tried.read[0], 24 * 16);
}

/// Twice is 23, equal or not, in any form, right beside it or not; whatever else is missing.
#[test]
fn twice() {
    let mut tried = Tried::default();
    for (place, (name, value)) in STAMPS.into_iter().enumerate() {
        let other: &[u8] = match place {
            2 => b"ffffffffffffffffffffffffffffffff",
            _ => b"051",
        };
        for again in [value, other, b"", b"no"] {
            for form in FORMS {
                for at in 0..=4 {
                    let mut fields = STAMPS.map(|it| line(it.0, it.1)).to_vec();
                    fields.push(line(b"A", b"1"));
                    fields.insert(at, form(name, again));
                    let found = tried
                        .import(&closed(&fields))
                        .expect_err("it is there twice");
                    assert!(found.contains(&STAMP_TWICE));
                    // Before 24 and 16.
                    let alone = [form(name, again), line(name, value), line(b"a", b"")];
                    assert_eq!(tried.number(&closed(&alone)), 23);
                }
            }
        }
    }
}

/// Missing ones are 24: one, two and all; with wrong fields too, and not where the text is none.
#[test]
fn missing() {
    let mut tried = Tried::default();
    let clauses = [NO_REALTIME, NO_MONOTONIC, NO_BOOT_ID];
    for there in 0..7 {
        let place = |bit: &usize| there >> bit & 1 == 1;
        let fields = (0..3)
            .filter(place)
            .map(|at| line(STAMPS[at].0, STAMPS[at].1));
        let fields: Vec<Vec<u8>> = fields.collect();
        let gone = (0..3).filter(|bit| !place(bit)).map(|at| clauses[at]);
        let gone: Vec<Clause> = gone.collect();
        for others in [
            vec![],
            vec![line(b"A", b"1")],
            vec![line(b"", b"1"), line(b"a", b"")],
            vec![counted(b"__X", b"\n")],
        ] {
            let text = closed(&[&fields[..], &others].concat());
            assert_eq!(tried.import(&text), Err(gone.clone()));
            assert_eq!(
                tried.import(&[&text[..], b"\n"].concat()),
                Err(vec![BYTES_BEHIND])
            );
            let cut = &text[..text.len() - 1];
            assert_eq!(tried.import(cut), Err(vec![NO_EMPTY_LINE]));
        }
    }
    tried.print("missing stamps");
}
