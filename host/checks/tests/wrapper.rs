//! The wrapper's typed answers are the archive's numbers: nothing is lost and nothing is made up.
use checks::against;
use checks::against::lookups::Words;
use checks::corpus::{self, FILES};
use checks::generator::any::any;
use checks::generator::mutation::targeted;
use checks::generator::questions::{one_of_each, Arguments};
use checks::random::Random;
use reading::ask::Question;
use reading::lookup::open;
use reading::refusal::CLAUSES;
use wrapper::raw;
use wrapper::{Foreign, Offset, Place, Refusal, Why, WrongHash};

/// The number of a lookup's answer.
fn number(answer: Result<Option<Offset>, Refusal>) -> u64 {
    match answer {
        Ok(Some(offset)) => offset.0,
        Ok(None) => 0,
        Err(refusal) => refusal.number(),
    }
}

/// Where a payload lies in its image.
fn part(image: &[u8], shown: Option<&[u8]>) -> raw::Part {
    shown.map_or(raw::Part::default(), |payload| raw::Part {
        at: (payload.as_ptr() as usize - image.as_ptr() as usize) as u64,
        len: payload.len() as u64,
    })
}

/// What the wrapper's plain reader says, in the archive's words.
fn plain(image: &[u8], question: &Question) -> Words {
    use wrapper::plain::{by_payload, by_realtime, by_seqnum, entry, item, value};
    let shown = |payload| Words::Part(part(image, payload));
    match question {
        Question::Entry(place) => Words::Number(number(entry(image, *place))),
        Question::FirstSeqnum(seqnum) => Words::Number(number(by_seqnum(image, *seqnum))),
        Question::FirstRealtime(realtime) => Words::Number(number(by_realtime(image, *realtime))),
        Question::Holding(payload, place) => {
            Words::Number(number(by_payload(image, payload, *place)))
        }
        Question::Item(at, place) => shown(item(image, Offset(*at), *place)),
        Question::Payload(name, place) => shown(value(image, name, *place)),
    }
}

/// Asks every lookup of both readers, one question in `step`.
fn same_lookups(image: &[u8], step: usize) {
    let mut arguments = Arguments::default();
    let opened = open(image);
    let questions = match &opened {
        Ok(journal) => {
            arguments.add(journal);
            arguments.questions(journal)
        }
        Err(_) => one_of_each(),
    };
    for question in questions.iter().step_by(step) {
        match question {
            Question::Entry(place) => {
                let answer = wrapper::entry(image, *place);
                assert_eq!(number(answer), raw::entry(image, *place));
            }
            Question::FirstSeqnum(seqnum) => {
                let answer = wrapper::by_seqnum(image, *seqnum);
                assert_eq!(number(answer), raw::by_seqnum(image, *seqnum));
            }
            Question::FirstRealtime(realtime) => {
                let answer = wrapper::by_realtime(image, *realtime);
                assert_eq!(number(answer), raw::by_realtime(image, *realtime));
            }
            Question::Holding(payload, place) => {
                let answer = wrapper::by_payload(image, payload, *place);
                assert_eq!(number(answer), raw::by_payload(image, payload, *place));
            }
            Question::Item(at, place) => {
                let answer = wrapper::item(image, Offset(*at), *place);
                assert_eq!(part(image, answer), raw::item(image, *at, *place));
            }
            Question::Payload(name, place) => {
                let answer = wrapper::value(image, name, *place);
                assert_eq!(part(image, answer), raw::value(image, name, *place));
            }
        }
        assert_eq!(
            plain(image, question),
            against::plain::archive(image, question)
        );
    }
    arguments.offsets.extend([0, 256, u64::MAX]);
    for &at in arguments.offsets.iter().step_by(step) {
        let is = raw::stamps(image, at);
        match wrapper::stamps(image, Offset(at)) {
            Ok(Some(stamps)) => {
                let boot_id = [is.boot_low, is.boot_high].map(u64::to_le_bytes).concat();
                assert_eq!(stamps.boot_id[..], boot_id);
                assert_eq!(
                    (
                        stamps.seqnum,
                        stamps.realtime,
                        stamps.monotonic,
                        stamps.items
                    ),
                    (is.seqnum, is.realtime, is.monotonic, is.items)
                );
                assert_eq!(is.refusal, 0);
                assert!(stamps.items > 0);
            }
            answer => {
                let refusal = answer.err().map_or(0, Refusal::number);
                assert_eq!(refusal, opened.as_ref().err().copied().unwrap_or(0));
                let nothing = raw::Stamps {
                    refusal,
                    ..raw::Stamps::default()
                };
                assert_eq!(is, nothing);
            }
        }
    }
}

/// The foreign objects at every place, and one after the other.
fn same_foreign(image: &[u8]) {
    let all = wrapper::foreign_objects(image).map(Vec::from_iter);
    for place in 0..all.as_ref().map_or(0, Vec::len) as u64 + 2 {
        let is = raw::foreign(image, place);
        let typed = wrapper::foreign(image, place);
        let number = |it: &Foreign| (0, it.offset.0, it.kind.into());
        let numbers = match &typed {
            Ok(object) => object.as_ref().map_or((0, 0, 0), number),
            Err(refusal) => (refusal.number(), 0, 0),
        };
        assert_eq!(numbers, (is.refusal, is.offset, is.kind));
        let listed = all.clone().map(|all| all.get(place as usize).copied());
        assert_eq!(typed, listed);
    }
}

/// Why it is refused; the place is an offset, 0 of the header, or a position.
fn same_why(image: &[u8]) {
    let is = raw::why(image);
    let Some(Why {
        refusal,
        place,
        hash,
    }) = wrapper::why(image)
    else {
        return assert_eq!(is, raw::Why::default());
    };
    let place = match place {
        Place::Header => 0,
        Place::Object(offset) if refusal.number() != 9 => offset.0,
        Place::Position(index) if refusal.number() == 9 => index,
        _ => panic!("{place:?} at {refusal}"),
    };
    let none = WrongHash {
        stored: 0,
        right: 0,
    };
    let (hash_wrong, WrongHash { stored, right }) = (hash.is_some().into(), hash.unwrap_or(none));
    let refusal = refusal.number();
    let numbers = raw::Why {
        refusal,
        place,
        hash_wrong,
        stored,
        right,
    };
    assert_eq!(numbers, is);
}

/// All entries and values, against the lookups one by one.
fn same_pages(image: &[u8]) {
    let mut page = vec![0; image.len().min(300)];
    let is = raw::page_entries(image, 0, &mut page.clone());
    match wrapper::page_entries(image, 0, &mut page) {
        Ok(page) => assert_eq!((0, page.count, page.next), (is.refusal, is.count, is.next)),
        Err(refusal) => assert_eq!((refusal.number(), 0), (is.refusal, is.count)),
    }
    let Ok(entries) = wrapper::all_entries(image) else {
        assert_ne!(raw::open(image), 0);
        return;
    };
    for (entry, place) in entries.iter().zip(0..) {
        assert_eq!(wrapper::entry(image, place), Ok(Some(entry.offset)));
        let stamps = wrapper::stamps(image, entry.offset).expect("it opens");
        let stamps = stamps.expect("it is committed");
        assert_eq!(
            (
                stamps.seqnum,
                stamps.realtime,
                stamps.monotonic,
                stamps.boot_id
            ),
            (entry.seqnum, entry.realtime, entry.monotonic, entry.boot_id)
        );
        let items = (0..stamps.items).map(|place| wrapper::item(image, entry.offset, place));
        assert!(items.flatten().eq(entry.payloads.iter().copied()));
    }
    assert_eq!(wrapper::entry(image, entries.len() as u64), Ok(None));
    for payload in entries.iter().flat_map(|entry| &entry.payloads).take(20) {
        let holding = entries
            .iter()
            .filter(|entry| entry.payloads.contains(payload));
        let matches = wrapper::all_matches(image, payload).expect("it opens");
        assert!(matches.iter().eq(holding));
        let name = payload.split(|&byte| byte == b'=').next().expect("a name");
        let values = (0..).map_while(|place| wrapper::value(image, name, place));
        let all = wrapper::all_values(image, name).expect("it opens");
        assert!(values.eq(all));
    }
}

#[test]
fn answers() {
    for seed in 0..60 {
        let image = any(&mut Random::new(seed + 80_000));
        same_lookups(&image, 7);
        same_pages(&image);
        same_foreign(&image);
        same_why(&image);
    }
    for (name, number) in FILES {
        let image = corpus::image(name);
        assert_eq!(
            wrapper::open(&image),
            Refusal::new(number).map_or(Ok(()), Err)
        );
        same_lookups(&image, 97);
        same_pages(&image);
        same_foreign(&image);
        same_why(&image);
    }
}

#[test]
fn refusals() {
    for &clause in CLAUSES {
        let image = targeted(clause, &mut Random::new(clause.number));
        let refused = wrapper::open(&image).err().map_or(0, Refusal::number);
        assert_eq!(refused, raw::open(&image), "{clause:?}");
        same_lookups(&image, 1);
        same_pages(&image);
        same_foreign(&image);
        same_why(&image);
    }
    let mut image = [0; 312];
    let made = wrapper::new(&mut image, &[0; 64], 1, 1, false, 256);
    assert_eq!(made.map_err(Refusal::number), Err(20));
    let carried = wrapper::carry_out(&mut image, &[], 1);
    assert_eq!(carried.map_err(Refusal::number), Err(21));
}

/// Every number has words of its own, on one line each.
#[test]
fn words() {
    assert_eq!(Refusal::new(0), None);
    let numbers = Vec::from_iter((1..=25).chain([28]));
    let all = numbers.iter().map(|&it| Refusal::new(it).expect("not 0"));
    let all: Vec<Refusal> = all.collect();
    for (refusal, &number) in all.iter().zip(&numbers) {
        assert_eq!(refusal.number(), number);
        let (sentence, row) = (refusal.sentence(), refusal.row());
        let line = format!("{sentence} (refusal {number}: {row})");
        assert_eq!(refusal.to_string(), line);
        assert!(sentence.len() > 20 && row.len() > 10, "{line}");
        assert!(
            !line.contains(|it: char| it.is_control() || !it.is_ascii()),
            "{line}"
        );
        let mut others = all.iter().filter(|other| *other != refusal);
        assert!(others.all(|other| other.sentence() != sentence && other.row() != row));
    }
    let unknown = Refusal::new(26).expect("not 0");
    assert_eq!(unknown.row(), "a number that the rules do not have");
}
