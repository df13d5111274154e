//! Files whose clock was set: the archive opens them, and searches them by time as the rules have it
//! and as no shorter search would.
use super::asking;
use super::paging;
use checks::generator::questions::Arguments;
use checks::generator::set_clock::{around, first_from, series, Kind, PLAIN};
use wrapper::raw;

/// A search of wall times in their order: the place that it finds.
type Search = fn(&[u64], u64) -> Option<usize>;

/// Searches that are not the rules'. Each finds the same where times rise, and where 2^63 is not
/// passed; here each has to find something else at some time, or the tests could not tell it apart.
const WRONG: [(&str, Search); 9] = [
    ("by halves", halves),
    ("of signed numbers", |times, t| {
        times.iter().position(|&it| it as i64 >= t as i64)
    }),
    ("of the nearest time at or above", |times, t| {
        let above = times.iter().enumerate().filter(|(_, &it)| it >= t);
        above.min_by_key(|(_, &it)| it).map(|(place, _)| place)
    }),
    ("from which on no time is below", |times, t| {
        let last_below = times.iter().rposition(|&it| it < t);
        let place = last_below.map_or(0, |place| place + 1);
        (place < times.len()).then_some(place)
    }),
    ("that finds none above the tail realtime", |times, t| {
        let tail = *times.last()?;
        first_from(times, t).filter(|_| t <= tail)
    }),
    (
        "that finds none above head and tail realtime",
        |times, t| {
            let ends = [*times.first()?, *times.last()?];
            first_from(times, t).filter(|_| ends.iter().any(|&end| t <= end))
        },
    ),
    ("that passes arrays by their last item", |times, t| {
        by_arrays(times, t, first_from)
    }),
    ("by halves in each array", |times, t| {
        by_arrays(times, t, halves)
    }),
    ("of the last time at or above", |times, t| {
        times.iter().rposition(|&it| it >= t)
    }),
];

fn halves(times: &[u64], t: u64) -> Option<usize> {
    let (mut low, mut high) = (0, times.len());
    while low < high {
        let middle = (low + high) / 2;
        match times[middle] >= t {
            true => high = middle,
            false => low = middle + 1,
        }
    }
    (low < times.len()).then_some(low)
}

/// The arrays of an appended file have 4 items, 8, 16 and so on.
fn by_arrays(times: &[u64], t: u64, search: Search) -> Option<usize> {
    let (mut start, mut items) = (0, 4);
    while start < times.len() {
        let end = times.len().min(start + items);
        if times[end - 1] >= t {
            return search(&times[start..end], t).map(|place| start + place);
        }
        (start, items) = (end, 2 * items);
    }
    None
}

/// At each time of each series, one below and one above.
#[test]
fn searched_around_each_jump() {
    let mut told_apart = [0; WRONG.len()];
    let mut searched = 0;
    for (what, times) in series() {
        assert!(times.windows(2).any(|pair| pair[1] < pair[0]), "{what}");
        for keyed in [0, 1] {
            let header_size = [256, 272][keyed as usize];
            let kind = Kind {
                keyed,
                header_size,
                ..PLAIN
            };
            let image = kind.file(&times);
            assert_eq!(raw::open(&image), 0, "{what}");
            let entries = wrapper::all_entries(&image).expect("it opens");
            assert!(entries.iter().map(|it| it.realtime).eq(times.clone()));
            for t in around(&times) {
                let place = first_from(&times, t);
                let offset = place.map_or(0, |place| entries[place].offset.0);
                assert_eq!(raw::by_realtime(&image, t), offset, "{what}: {t}");
                searched += 1;
                for ((_, search), told_apart) in WRONG.iter().zip(&mut told_apart) {
                    *told_apart += (search(&times, t) != place) as u64;
                }
            }
        }
    }
    println!("searched around each jump: {searched} times");
    for ((what, _), told_apart) in WRONG.iter().zip(told_apart) {
        println!("{told_apart:>6} a search {what}");
        assert!(told_apart > 0, "a search {what} would pass");
    }
}

/// Every other lookup, and every page, against the reading.
#[test]
fn all_questions_and_pages() {
    let (mut asked, mut paged) = (asking::Tried::default(), paging::Tried::default());
    for ((_, times), keyed) in series().into_iter().zip([0, 1].into_iter().cycle()) {
        let image = Kind { keyed, ..PLAIN }.file(&times);
        asked.image(&image, &Arguments::default());
        if times.len() < 20 {
            paged.image(&image);
        }
    }
    asked.print("files whose clock was set");
    asked.covers();
    paged.print("files whose clock was set");
    assert_eq!((asked.images[0], asked.refused), (12, 0));
    assert_eq!(paged.images[0], 11);
    assert!(paged.none > 100 && paged.some > 100 && paged.all > 100);
}
