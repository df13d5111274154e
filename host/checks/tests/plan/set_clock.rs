//! Appends to files whose clock was set: a stamp below the last wall time is taken, and every cut of
//! such an append answers as before it or as after it.
use checks::against::cuts::cuts;
use checks::against::orders::orders;
use checks::generator::frame::set;
use checks::generator::set_clock::{fields, series, Kind, PLAIN};
use checks::random::Random;
use reading::image::le64;
use reading::layout::header;
use reading::request::Request;

use crate::made::Tried;

/// Entry by entry; with each a wall time of any kind is taken, and the other stamps are compared as
/// ever.
#[test]
fn taken_below_the_last() {
    let mut tried = Tried::default();
    let mut below = 0;
    for (what, times) in series() {
        for keyed in [0, 1] {
            let header_size = if keyed == 1 { 272 } else { 256 };
            let kind = Kind {
                keyed,
                header_size,
                ..PLAIN
            };
            let mut image = kind.empty();
            for (&time, n) in times.iter().zip(0..) {
                let fields = fields(n);
                let ask = kind.request(&fields, n, time);
                if n > 0 {
                    let last = kind.request(&fields, n - 1, time);
                    let seqnum = Request {
                        seqnum: last.seqnum,
                        ..ask
                    };
                    assert_eq!(tried.append(&image, seqnum), 17, "{what}");
                    let mut monotonic = ask;
                    monotonic.monotonic = last.monotonic - 1;
                    assert_eq!(tried.append(&image, monotonic), 17, "{what}");
                    monotonic.boot_id = [9; 16];
                    assert_eq!(tried.append(&image, monotonic), 0, "{what}");
                    below += (time < le64(&image, header::TAIL_ENTRY_REALTIME)) as u64;
                }
                assert_eq!(tried.append(&image, ask), 0, "{what}");
                tried.carried(&mut image, ask);
                let ends = [header::HEAD_ENTRY_REALTIME, header::TAIL_ENTRY_REALTIME];
                assert_eq!(ends.map(|at| le64(&image, at)), [times[0], time]);
            }
        }
    }
    tried.print("appends below the last wall time");
    assert!(below > 80, "{below}");
}

/// 14: head and tail realtime are those of the first and of the last entry, and not the least and the
/// greatest.
#[test]
fn head_and_tail() {
    let mut tried = Tried::default();
    let (mut refused, mut taken) = (0, 0);
    for (what, times) in series() {
        let image = PLAIN.file(&times);
        let n = times.len() as u64;
        let fields = fields(n);
        let ask = PLAIN.request(&fields, n, times[0]);
        assert_eq!(tried.append(&image, ask), 0, "{what}");
        for at in [header::HEAD_ENTRY_REALTIME, header::TAIL_ENTRY_REALTIME] {
            for &time in &times {
                let mut image = image.clone();
                let number = if le64(&image, at) == time { 0 } else { 14 };
                set(&mut image, at, time);
                assert_eq!(tried.append(&image, ask), number, "{what}: {time} at {at}");
                match number {
                    0 => taken += 1,
                    _ => refused += 1,
                }
            }
        }
    }
    tried.print("head and tail realtime");
    assert!(refused > 100 && taken >= 24, "{refused} and {taken}");
}

/// At every store of every append; each question at one cut in so many.
#[test]
fn cut_at_every_store() {
    let (mut appends, mut count, mut answers) = (0, 0, 0);
    for (what, times) in series() {
        let step = if times.len() < 20 { 7 } else { 61 };
        let kind = Kind {
            keyed: appends % 2,
            header_size: [256, 272][appends as usize / 2 % 2],
            ..PLAIN
        };
        let mut image = kind.empty();
        for (&time, n) in times.iter().zip(0..) {
            let fields = fields(n);
            let ask = kind.request(&fields, n, time);
            let cut = cuts(&image, ask, step, appends)
                .unwrap_or_else(|difference| panic!("{what}: {difference}"))
                .unwrap_or_else(|number| panic!("{what}: refused {number}"));
            image = cut.after;
            appends += 1;
            count += cut.cuts;
            answers += cut.answers;
        }
    }
    println!("cut at every store: {appends} appends, {count} cuts, {answers} answers");
    assert_eq!(appends, series().iter().map(|it| it.1.len() as u64).sum());
    assert!(count > 30 * appends && answers > 50_000);
}

/// Any stores between two syncs, for an append that falls and one that rises again.
#[test]
fn any_stores_between_syncs() {
    let random = &mut Random::new(1);
    let mut images = 0;
    for (what, times) in series() {
        let image = PLAIN.file(&times);
        let n = times.len() as u64;
        let fields = fields(n + 1);
        for time in [0, times[0], u64::MAX] {
            let ask = PLAIN.request(&fields, n, time);
            match orders(&image, ask, (4, 40), random) {
                Ok(Ok(count)) => images += count,
                Ok(Err(number)) => panic!("{what}: refused {number}"),
                Err(difference) => panic!("{what}: {difference}"),
            }
        }
    }
    println!("any stores between syncs: {images} images");
    assert!(images > 500);
}
