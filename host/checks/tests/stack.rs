//! Every call that reads an image does with the stack that `docs/HOST.md` names. With too little of it
//! the whole test ends.
use checks::generator::frame::set;
use checks::generator::worked::{first, request, second, two_appends};
use reading::batch::packed;
use wrapper::{Offset, Planned, PlannedBatch, Request, Which};

/// "1.3 MiB of stack for each call"
const READING: usize = 13 * MIB / 10;

/// "1.4 for `journal_plan`"
const PLAN: usize = 14 * MIB / 10;

/// "1.6 for `journal_plan_batch`"
const BATCH: usize = 16 * MIB / 10;

const MIB: usize = 1 << 20;

/// Makes calls in a thread with so much stack.
fn within<T: Send + 'static>(stack: usize, calls: impl FnOnce() -> T + Send + 'static) -> T {
    let thread = std::thread::Builder::new().stack_size(stack);
    let thread = thread.spawn(calls).expect("a thread");
    thread.join().expect("every call ends well")
}

/// Makes a file and appends to it twice.
fn appends(keyed: bool) -> Vec<u8> {
    let mut image = vec![0; 65_536];
    let mut list = [0; 16 * 100];
    assert_eq!(wrapper::new(&mut image, &[2; 64], 1, 1, keyed, 256), Ok(()));
    for (seqnum, fields) in [(1, first()), (2, second())] {
        let request = Request {
            machine: &[2; 16],
            boot: &[2; 16],
            seqnum,
            realtime: seqnum,
            monotonic: seqnum,
            fields: &fields,
        };
        let Planned::Stores { count } = wrapper::plan(&image, &request, &mut list) else {
            panic!("the append is taken");
        };
        assert_eq!(wrapper::sync_points(&list[..16 * count as usize]).len(), 6);
        assert_eq!(wrapper::carry_out(&mut image, &list, count), Ok(()));
    }
    image
}

/// Plans a batch of the same, and one of 32 entries.
fn batches(image: &[u8]) {
    let mut list = vec![0; 16 * 4_000];
    let (first, second) = (first(), second());
    let few = vec![request(&first, 3, 3, 3), request(&second, 4, 4, 4)];
    let many = (3..35).map(|n| request(&first, n, n, n)).collect();
    for asked in [few, many] {
        let batch = wrapper::plan_batch(image, &[2; 16], &packed(&asked), &mut list);
        assert!(matches!(batch, PlannedBatch::Stores { .. }));
    }
}

/// Asks every lookup.
fn lookups(image: &[u8]) {
    assert_eq!(wrapper::open(image), Ok(()));
    let entry = wrapper::entry(image, 1)
        .expect("it opens")
        .expect("an entry");
    assert_eq!(wrapper::by_seqnum(image, 2), Ok(Some(entry)));
    assert_eq!(wrapper::by_realtime(image, 2), Ok(Some(entry)));
    assert_eq!(
        wrapper::by_payload(image, b"PRIORITY=2", 1),
        Ok(Some(entry))
    );
    let stamps = wrapper::stamps(image, entry)
        .expect("it opens")
        .expect("an entry");
    assert_eq!(stamps.seqnum, 2);
    let payload = wrapper::item(image, entry, 0);
    assert_eq!(payload, Some(&b"PRIORITY=2"[..]));
    assert_eq!(wrapper::value(image, b"PRIORITY", 0), payload);
    assert_eq!(wrapper::foreign(image, 0), Ok(None));
    let text = wrapper::export(image, entry).expect("it opens");
    assert!(text.expect("an entry").ends_with(b"PRIORITY=2\n\n"));
}

/// The same by the plain reader.
fn plain_lookups(image: &[u8]) {
    use wrapper::plain::{by_payload, by_realtime, by_seqnum, entry, item, value};
    let second = entry(image, 1).expect("it is read").expect("an entry");
    assert_eq!(by_seqnum(image, 2), Ok(Some(second)));
    assert_eq!(by_realtime(image, 2), Ok(Some(second)));
    assert_eq!(by_payload(image, b"PRIORITY=2", 1), Ok(Some(second)));
    let payload = item(image, second, 0);
    assert_eq!(payload, Some(&b"PRIORITY=2"[..]));
    assert_eq!(value(image, b"PRIORITY", 0), payload);
}

/// Asks why a file is refused: it is not; and after each of some damages, one for each number from 6 on.
fn whys(image: &[u8]) {
    assert_eq!(wrapper::why(image), None);
    let words = [
        (136, 1, 6),
        (104, 0, 7),
        (176, 8, 8),
        (152, 9, 9),
        (376, 9, 10),
        (336, 9, 11),
    ];
    for (at, value, number) in words {
        let mut image = image.to_vec();
        set(&mut image, at, value);
        let why = wrapper::why(&image).expect("it is refused");
        assert_eq!(why.refusal.number(), number);
    }
}

#[test]
fn a_small_stack() {
    for keyed in [false, true] {
        let image = within(PLAN, move || appends(keyed));
        let (planned, walked, asked) = (image.clone(), image.clone(), image.clone());
        within(BATCH, move || batches(&planned));
        within(READING, move || plain_lookups(&walked));
        within(READING, move || whys(&asked));
        within(READING, move || lookups(&image));
    }
}

/// Each of the calls on two images, which are judged one after the other.
fn calls_on_two() {
    let (first, second) = (two_appends(0), two_appends(1));
    let step = wrapper::merged(&first, &second, 1, 0).expect("both open");
    let step = step.expect("an entry");
    assert_eq!((step.file, step.entry), (Which::Second, Offset(584)));
    let payload = wrapper::merged_item(&first, &second, 1, 0, 1);
    assert_eq!(payload, Some((Which::Second, &b"PRIORITY=2"[..])));
    let mut page = [0; 200];
    let page = wrapper::page_merged(&first, &second, 0, 0, &mut page).expect("both open");
    assert_eq!((page.count, page.next), (2, 0));
}

#[test]
fn a_small_stack_for_two_images() {
    within(READING, calls_on_two);
}
