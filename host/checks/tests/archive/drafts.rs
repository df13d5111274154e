//! The example drawn in other ways, one by one.
use super::example::*;
use super::open::tried;
use checks::generator::draft::{Draft, Item};

/// A way to change a draft.
type Redraw = fn(&mut Draft);

#[test]
fn drafts_one_by_one() {
    let mut tried = tried();
    let cases: [(&str, u64, Redraw); 20] = [
        ("as it is", 0, |_| ()),
        ("field table first", 0, |it| it.data_table_first = false),
        ("a header of 264", 0, |it| it.header_size = 264),
        ("a header of 272", 0, |it| it.header_size = 272),
        ("a header of 272 and all compatible bits", 0, |it| {
            (it.header_size, it.compatible_flags) = (272, u32::MAX)
        }),
        ("one cell each", 0, |it| {
            (it.data_cells, it.field_cells) = (1, 1)
        }),
        ("many cells", 0, |it| {
            (it.data_cells, it.field_cells) = (1000, 100)
        }),
        ("no TAG and no foreign type", 0, |it| {
            it.parts.truncate(LIST + 1);
            it.order.truncate(LIST + 1);
        }),
        ("objects in another order", 0, |it| it.order.reverse()),
        ("equal payloads on the chains", 11, |it| {
            it.data_mut(TWIN).chained = Some(0)
        }),
        ("equal names on the chains", 11, |it| {
            it.field_mut(FIELD_OFF).chained = Some(0)
        }),
        ("a DATA in a wrong cell", 11, |it| {
            it.data_mut(STALE).chained = Some(1)
        }),
        ("a FIELD in a wrong cell", 11, |it| {
            it.field_mut(FIELD_STATE).chained = Some(1)
        }),
        ("a held DATA off its chain", 11, |it| {
            it.data_mut(DUE).chained = None
        }),
        ("a DATA that is not held off its chain", 0, |it| {
            it.data_mut(STALE).chained = None
        }),
        ("a held DATA off its list", 11, |it| {
            it.data_mut(DUE).listed = false
        }),
        ("a DATA that is not held off its list", 0, |it| {
            it.data_mut(STALE).listed = false
        }),
        ("no FIELD on the chains, one off them", 11, |it| {
            it.field_mut(FIELD_STATE).chained = None
        }),
        ("a payload without `=`, in no entry", 11, |it| {
            it.data_mut(TWIN).payload = b"LOT".to_vec()
        }),
        ("nothing before `=`, in no entry", 11, |it| {
            it.data_mut(TWIN).payload = b"=LOT".to_vec()
        }),
    ];
    for keyed in [false, true] {
        for (what, number, redraw) in &cases {
            let mut draft = example();
            draft.keyed = keyed;
            redraw(&mut draft);
            // Sequence numbers rise with offsets, also where the objects stand in another order; wall
            // times fall then.
            if *what == "objects in another order" {
                draft.committed.reverse();
                renumber(&mut draft);
            }
            assert_eq!(tried.number(&drawn(&draft).image), *number, "{what}");
        }
    }
    // xor_hash taken with the keyed hash in a keyed file.
    let mut draft = example();
    (draft.keyed, draft.keyed_xor) = (true, true);
    assert_eq!(tried.number(&drawn(&draft).image), 11);
    tried.print("drafts one by one");
}

/// Arrays, entries and facts for committed entries in the reversed order of the file. The
/// uncommitted one stands before them then, so it is no longer above the last.
fn renumber(draft: &mut Draft) {
    for (n, entry) in draft.committed.clone().into_iter().enumerate() {
        let it = draft.entry_mut(entry);
        (it.seqnum, it.monotonic) = (n as u64 + 1, n as u64);
    }
    let items: Vec<Item> = draft.committed.iter().map(|&it| Item::Entry(it)).collect();
    draft.array_mut(GLOBAL).items[..3].copy_from_slice(&items);
    draft.data_mut(LOT).entry_offset = items[0];
    draft.array_mut(LIST).items = vec![items[1], Item::Raw(u64::MAX), items[2]];
}
