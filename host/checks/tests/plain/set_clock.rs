//! Files whose clock was set: the first entry in order at or after a time, which is not the nearest one.
use super::asking::Tried;
use checks::generator::set_clock::{around, first_from, series, Kind, PLAIN};
use wrapper::raw;

/// At each time of each series, one below and one above; and every other question.
#[test]
fn searched_around_each_jump() {
    let mut tried = Tried::default();
    let mut searched = 0;
    for ((what, times), keyed) in series().into_iter().zip([0, 1].into_iter().cycle()) {
        let header_size = [256, 272][keyed as usize];
        let kind = Kind {
            keyed,
            header_size,
            ..PLAIN
        };
        let image = kind.file(&times);
        let entries = wrapper::all_entries(&image).expect("it opens");
        for t in around(&times) {
            let place = first_from(&times, t);
            let offset = place.map_or(0, |place| entries[place].offset.0);
            assert_eq!(raw::plain::by_realtime(&image, t), offset, "{what}: {t}");
            searched += 1;
        }
        assert_eq!(tried.image(&image), 0, "{what}");
    }
    println!("searched around each jump: {searched} times");
    tried.print("files whose clock was set");
    tried.covers();
    assert!(searched > 200);
}
