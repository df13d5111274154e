//! The archive against the independent reading, as often as asked:
//! `cargo run --offline --release -p checks -- 1000000` opens so many images of every kind,
//! `.. -- plan 1000000` works out so many appends and where to sync them, `.. -- cuts 1000` cuts so
//! many appends everywhere and asks every lookup each time, `.. -- batch 100000` works out so many
//! batches, `.. -- batch-cuts 100` cuts so many of them everywhere and asks one lookup in nine each time,
//! `.. -- merged 10000` shows so many pairs of files as one stream, `.. -- foreign 100000` names the
//! foreign objects of so many images, `.. -- plain 10000` puts one question in nine to both readers of
//! so many, `.. -- why 100000` asks why so many are refused, and `.. -- exchange 1000000` reads so many
//! texts and writes what was read, and an image's entries now and then. A second number is the first seed. It
//! ends with status 1 at the first difference, and leaves the image or the text in a file, or the two images
//! one after the other.
use checks::against::batch::Batch;
use checks::against::plan::{number, Append};
use checks::against::{batch_cuts, cuts, exchange, foreign, merged, plain, why};
use checks::generator::dice::{between, once_in, pick};
use checks::generator::questions::questions;
use checks::generator::wider::of_refused;
use checks::generator::{any::any, appends, batches, good, mutation, pairs::pair, texts};
use checks::random::Random;
use reading::lookup;
use reading::refusal::refusal;
use std::time::Instant;
use wrapper::raw;

/// The answer that both give; or what differs, and the image.
type Compared = Result<u64, (String, Vec<u8>)>;

fn main() {
    let mut arguments: Vec<String> = std::env::args().skip(1).collect();
    let (what, every, compare): (_, _, fn(&mut Random) -> Compared) =
        match arguments.first().map(String::as_str) {
            Some("plan") => ("appends", 50_000, plan),
            Some("cuts") => ("appends at every cut", 100, cut),
            Some("batch") => ("batches", 10_000, batch),
            Some("batch-cuts") => ("batches at every cut", 10, cut_batch),
            Some("merged") => ("pairs of files", 10_000, stream),
            Some("foreign") => ("images by their foreign objects", 50_000, named),
            Some("plain") => ("images by both readers", 5_000, both),
            Some("why") => ("images by their faults", 50_000, refused),
            Some("exchange") => ("texts", 100_000, exchanged),
            _ => ("images", 50_000, open),
        };
    if what != "images" {
        arguments.remove(0);
    }
    let numbers: Vec<u64> = arguments
        .iter()
        .map(|number| number.parse().expect("a number of images or appends"))
        .collect();
    let count = numbers.first().copied().unwrap_or(100_000);
    let first = numbers.get(1).copied().unwrap_or(0);
    let start = Instant::now();
    let mut answers = [0u64; 29];
    for n in 0..count {
        let seed = first.wrapping_add(n);
        let random = &mut Random::new(seed.wrapping_mul(0x9e37_79b9_7f4a_7c15));
        match compare(random) {
            Ok(answer) => answers[answer as usize] += 1,
            Err((difference, image)) => {
                let path = format!("difference-{seed}.journal");
                std::fs::write(&path, &image).expect("a file for the image");
                eprintln!("seed {seed}: {difference}; the image is in {path}");
                std::process::exit(1);
            }
        }
        if (n + 1) % every == 0 || n + 1 == count {
            println!(
                "{} {what} in {} s, no difference; by their answers 0 to 28 {answers:?}",
                n + 1,
                start.elapsed().as_secs()
            );
        }
    }
}

fn open(random: &mut Random) -> Compared {
    let image = any(random);
    let (expected, answer) = (refusal(&image), raw::open(&image));
    if answer == expected {
        Ok(answer)
    } else {
        Err((format!("{answer}, and not {expected}"), image))
    }
}

fn named(random: &mut Random) -> Compared {
    let image = any(random);
    foreign::compare(&image, random.word() >> 8)
        .map(|answer| answer.err().unwrap_or(0))
        .map_err(|difference| (difference, image))
}

/// Of images of any kind, and of as many with faults of one number at several places.
fn refused(random: &mut Random) -> Compared {
    let number = pick(random, &[6, 8, 9, 10, 11, 11, 11]);
    let image = match random.below(4) {
        0 => mutation::crowded(number, random),
        1 => mutation::scattered(number, random),
        _ => any(random),
    };
    why::compare(&image, random.word() >> 8)
        .map(|answer| answer.refusal)
        .map_err(|difference| (difference, image))
}

/// Of images of any kind, and of as many that an append takes.
fn both(random: &mut Random) -> Compared {
    let image = match once_in(random, 2) {
        true => good::tidy(random).image,
        false => any(random),
    };
    let opened = reading::plain::open(&image);
    let all = match &opened {
        Ok(_) => questions(&lookup::open(&image).expect("both readers take it")),
        Err(number) => of_refused(&image, *number).0,
    };
    let first = random.below(9);
    let some = Vec::from_iter(all.into_iter().skip(first).step_by(9));
    plain::compare(&image, &opened, &some, random.word() >> 8)
        .map(|_| opened.as_ref().err().copied().unwrap_or(0))
        .map_err(|difference| (difference, image.clone()))
}

/// Of texts of any kind, with what is read of them written again; one time in 64 of an image's entries.
fn exchanged(random: &mut Random) -> Compared {
    let tried = random.word() >> 8;
    if once_in(random, 64) {
        let image = any(random);
        let opened = lookup::open(&image);
        let mut offsets = vec![random.word() >> random.below(64)];
        if let Ok(journal) = &opened {
            offsets.extend(journal.image.objects.iter().map(|object| object.offset));
        }
        let mut all = offsets.into_iter();
        return all
            .try_for_each(|offset| exchange::export(&image, &opened, offset, tried).map(drop))
            .map(|()| opened.as_ref().err().copied().unwrap_or(0))
            .map_err(|difference| (difference, image.clone()));
    }
    let text = texts::any(random);
    exchange::import(&text, tried)
        .and_then(|read| match read {
            Ok(entry) => exchange::text(&entry.stamps, &entry.fields, tried).map(|_| 0),
            Err(found) => Ok(found[0].number),
        })
        .map_err(|difference| (difference, text))
}

/// With the case's own list, and with lists of several lengths.
fn plan(random: &mut Random) -> Compared {
    let case = appends::any(random);
    let append = Append::new(&case.image, case.asked.request());
    let tried = random.word() >> 8;
    append
        .put_all(tried)
        .and_then(|_| append.put(case.list, tried))
        .map(|(planned, _)| number(&planned))
        .map_err(|difference| (format!("{difference}, of {:?}", case.asked), case.image))
}

fn cut(random: &mut Random) -> Compared {
    let case = appends::good(random);
    let tried = random.word() >> 8;
    cuts::cuts(&case.image, case.asked.request(), 1, tried)
        .map(|taken| taken.err().unwrap_or(0))
        .map_err(|difference| (format!("{difference}, of {:?}", case.asked), case.image))
}

/// With lists of several lengths.
fn batch(random: &mut Random) -> Compared {
    let case = batches::any(random);
    Batch::new(&case.image, case.machine_id, &case.entries())
        .put_all(random.word() >> 8)
        .map(|answer| answer.refusal)
        .map_err(|difference| (format!("{difference}, of {:?}", case.asked), case.image))
}

fn cut_batch(random: &mut Random) -> Compared {
    let case = batches::good(random);
    let entries = case.entries();
    let batch = Batch::new(&case.image, case.machine_id, &entries);
    batch_cuts::taken(&batch, random.word() >> 8)
        .and_then(|taken| match taken {
            Ok(taken) => batch_cuts::cuts(&taken, 9).map(|_| 0),
            Err(number) => Ok(number),
        })
        .map_err(|difference| {
            (
                format!("{difference}, of {:?}", case.asked),
                case.image.clone(),
            )
        })
}

/// From 0 and 0 and from some other pairs of places; now and then of two files of any kind.
fn stream(random: &mut Random) -> Compared {
    let images = match once_in(random, 8) {
        true => [any(random), any(random)],
        false => pair(random),
    };
    let mut from = vec![[0, 0]];
    from.extend((0..8).map(|_| [between(random, 0, 9), between(random, 0, 9)]));
    let length = between(random, 0, 1_200) as usize;
    merged::compare([&images[0], &images[1]], &from, length)
        .map_err(|difference| (difference, images.concat()))
}
