//! Foreign objects play no part in any lookup: all that is shown of a file with them is what is shown
//! of it without them.
use super::asking;
use super::example::drawn;
use super::naming::bare;
use super::paging;
use checks::against::lookups::archive;
use checks::corpus;
use checks::generator::draft::{Draft, Part};
use checks::generator::questions::Arguments;
use checks::generator::{foreign, good, grown};
use checks::random::Random;
use reading::image::Image;
use reading::layout::kind::{FIRST_FOREIGN, TAG};
use reading::lookup::open;
use reading::refusal::refusal;
use wrapper::{raw, Entry};

/// Every lookup, stamps, pages and the stream: the same of both, offsets too. The number of answers.
fn same(one: &[u8], other: &[u8]) -> u64 {
    let journal = open(one).expect("it opens");
    let mut arguments = Arguments::default();
    arguments.add(&journal);
    let questions = arguments.questions(&journal);
    for question in &questions {
        assert_eq!(archive(one, question), archive(other, question));
    }
    for &at in &arguments.offsets {
        assert_eq!(raw::stamps(one, at), raw::stamps(other, at));
    }
    assert_eq!(wrapper::all_entries(one), wrapper::all_entries(other));
    let merged = wrapper::all_merged(one, one);
    assert_eq!(merged, wrapper::all_merged(other, one));
    assert_eq!(merged, wrapper::all_merged(one, other));
    for payload in &arguments.payloads {
        let all = wrapper::all_matches(one, payload);
        assert_eq!(all, wrapper::all_matches(other, payload));
    }
    for name in &arguments.names {
        let all = wrapper::all_values(one, name);
        assert_eq!(all, wrapper::all_values(other, name));
    }
    (questions.len() + arguments.offsets.len()) as u64
}

/// Put behind the tail object, nothing else moves.
#[test]
fn behind_all_others() {
    let mut images: Vec<Vec<u8>> = corpus::FILES
        .iter()
        .filter(|(_, number)| *number == 0)
        .take(1)
        .map(|(name, _)| corpus::image(name))
        .collect();
    for seed in 0..60 {
        let random = &mut Random::new(seed + 10_000);
        images.extend([good::tidy(random).image, grown::grown(random, 9)]);
    }
    let (mut files, mut answers) = (0, 0);
    for (seed, image) in images.iter().enumerate() {
        let mut with_some = image.clone();
        let random = &mut Random::new(seed as u64);
        let kinds = [foreign::any(random), foreign::any(random)];
        let put = kinds.map(|(kind, size)| foreign::put(&mut with_some, kind, size));
        if put[0].is_some() {
            answers += same(image, &with_some);
            files += 1;
        }
    }
    println!("behind all others: {files} files, {answers} answers");
    assert!(files > 40 && answers > 10_000);
}

/// Another type at the same place: every other foreign one, and TAG where the size is a TAG's.
#[test]
fn of_another_type() {
    let (mut turned, mut answers) = (0, 0);
    for seed in 0..120 {
        let random = &mut Random::new(seed + 20_000);
        let image = good::good(random).image;
        let mut other = image.clone();
        for object in &Image::walked(&image).objects {
            if object.kind >= FIRST_FOREIGN {
                other[object.offset as usize] = foreign::any(random).0;
                turned += 1;
            } else if object.kind == TAG {
                other[object.offset as usize] = 64;
                turned += 1;
            }
        }
        assert_eq!(refusal(&other), 0);
        answers += same(&image, &other);
    }
    println!("of another type: {turned} objects, {answers} answers");
    assert!(turned > 100);
}

/// What a person is shown of entries: all but where they lie.
fn shown(image: &[u8]) -> Vec<Entry<'_>> {
    let mut entries = wrapper::all_entries(image).expect("it opens");
    entries
        .iter_mut()
        .for_each(|entry| entry.offset = wrapper::Offset(0));
    entries
}

/// The example with foreign objects at some places of its order.
fn amid(random: &mut Random) -> Draft {
    let mut draft = bare();
    for _ in 0..6 {
        let (kind, size) = foreign::any(random);
        let place = random.below(draft.order.len() + 1);
        draft.add(Part::Foreign { kind, size }, place);
    }
    draft
}

/// Between the others, which move: the entries, values and matches are the same.
#[test]
fn amid_all_others() {
    let without = drawn(&bare()).image;
    let payloads: Vec<&[u8]> = shown(&without)
        .iter()
        .flat_map(|entry| entry.payloads.clone())
        .collect();
    assert!(payloads.len() > 3);
    for seed in 0..60 {
        let image = drawn(&amid(&mut Random::new(seed))).image;
        assert_eq!(shown(&image), shown(&without));
        for payload in &payloads {
            let seqnums = |image| {
                let all = wrapper::all_matches(image, payload).expect("it opens");
                Vec::from_iter(all.into_iter().map(|entry| entry.seqnum))
            };
            assert_eq!(seqnums(&image), seqnums(&without));
            let name = payload.split(|&byte| byte == b'=').next().expect("a name");
            let values = wrapper::all_values(&image, name);
            assert_eq!(values, wrapper::all_values(&without, name));
        }
    }
}

/// Every question and page of such files, against the reading.
#[test]
fn all_questions_and_pages() {
    let (mut asked, mut paged) = (asking::Tried::default(), paging::Tried::default());
    for seed in 0..12 {
        let image = drawn(&amid(&mut Random::new(seed + 500))).image;
        asked.image(&image, &Arguments::default());
        paged.image(&image);
    }
    asked.print("files with foreign objects");
    asked.covers();
    paged.print("files with foreign objects");
    assert_eq!((asked.images[0], paged.images[0]), (12, 12));
}
