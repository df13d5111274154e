//! Good images: all that the rules accept, not only what an append makes. Objects stand in
//! any order, entries may be uncommitted, DATA off the chains and lists, arrays shared.
use super::dice::{between, once_in, pick, shuffle};
use super::draft::{Draft, Part};
use super::parts::{add_data, add_entries, add_fields, add_loose};
use super::render::render;
use super::rendered::Rendered;
use super::strays::{share_arrays, stray_links};
use super::wish::Wish;
use crate::random::Random;
use reading::layout::{Layout, HEADER_SIZES, TAIL_ENTRY_BOOT_ID};

/// A good image.
pub fn good(random: &mut Random) -> Rendered {
    let tidy = once_in(random, 3);
    let mut draft = draft(
        random,
        Wish {
            tidy,
            entries: 8,
            data: 8,
        },
    );
    if tidy {
        return render(&draft, random);
    }
    share_arrays(random, &mut draft);
    let mut made = render(&draft, random);
    stray_links(random, &mut made);
    made
}

/// A good image that an append takes.
pub fn tidy(random: &mut Random) -> Rendered {
    let draft = draft(
        random,
        Wish {
            tidy: true,
            entries: 10,
            data: 6,
        },
    );
    render(&draft, random)
}

const NAMES: &[&[u8]] = &[
    b"MESSAGE",
    b"PRIORITY",
    b"_PID",
    b"A",
    b"B2",
    b"lower case",
    b"\xff\x00",
];

fn empty(random: &mut Random, wish: Wish) -> Draft {
    let most_cells = if once_in(random, 3) { 1 } else { 9 };
    // An append to 264 is 25, and to 272 it is taken with compatible bit 1 and without.
    let (header_size, compatible_flags) = match wish.tidy {
        true => pick(random, &[(256, 0), (272, 0), (272, TAIL_ENTRY_BOOT_ID)]),
        false => {
            let flags = random.word() as u32;
            (
                pick(random, &HEADER_SIZES),
                pick(random, &[0, TAIL_ENTRY_BOOT_ID, flags]),
            )
        }
    };
    Draft {
        file_id: random.array(),
        machine_id: random.array(),
        boot_id: random.array(),
        seqnum_id: random.array(),
        compatible_flags,
        header_size,
        layout: pick(random, &Layout::BOTH),
        keyed: once_in(random, 2),
        state: if wish.tidy {
            0
        } else {
            pick(random, &[0, 1, 2, 255])
        },
        data_table_first: once_in(random, 2),
        data_cells: between(random, 1, most_cells),
        field_cells: between(random, 1, most_cells),
        parts: Vec::new(),
        order: Vec::new(),
        committed: Vec::new(),
        entry_array: None,
        spare: 8 * if wish.tidy {
            pick(random, &[0, 3, 30, 60, 100, 200, 400, 600])
        } else {
            pick(random, &[0, 1, 2, 5, 60])
        },
        trailing: pick(random, &[0, 1, 7, 8, 30]),
        noise: once_in(random, 2),
        free_facts: !wish.tidy && once_in(random, 2),
        keyed_xor: false,
    }
}

pub fn draft(random: &mut Random, wish: Wish) -> Draft {
    let mut draft = empty(random, wish);
    let names: Vec<&[u8]> = {
        let mut names = NAMES.to_vec();
        shuffle(random, &mut names);
        names.truncate(between(random, 1, 4) as usize);
        names
    };
    let held = add_data(random, &mut draft, wish, &names);
    let loose = if wish.tidy {
        Vec::new()
    } else {
        add_loose(random, &mut draft, &held)
    };
    add_fields(random, &mut draft, wish, &held);
    let (entries, committed) = add_entries(random, &mut draft, wish, &held, &loose);
    for _ in 0..pick(random, &[0, 0, 1, 3]) {
        draft.parts.push(Part::Tag);
    }
    for _ in 0..pick(random, &[0, 0, 1, 3]) {
        let (kind, size) = (between(random, 8, 255) as u8, between(random, 16, 50));
        draft.parts.push(Part::Foreign { kind, size });
    }
    super::lists::add_arrays(random, &mut draft, wish, entries, committed);
    draft
}
