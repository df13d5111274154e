//! Words that one number judges, set anew all over an image, each to what no lower number minds.
use super::links::wrong_target;
use crate::generator::dice::{between, edge, once_in, pick, some_of};
use crate::generator::good::{draft, good};
use crate::generator::render::render;
use crate::generator::rendered::Rendered;
use crate::generator::wish::Wish;
use crate::random::Random;
use reading::image::{Image, Object};
use reading::layout::{array, data, entry, header, kind};

/// An image to which no number below 6, 8, 9, 10 or 11 applies, and mostly this one does, at many places.
pub fn scattered(number: u64, random: &mut Random) -> Vec<u8> {
    let wish = Wish {
        tidy: false,
        entries: 10,
        data: 14,
    };
    let mut made = match once_in(random, 2) {
        true => render(&draft(random, wish), random),
        false => good(random),
    };
    let objects = Image::walked(&made.image).objects;
    match number {
        6 => walk(random, &mut made, &objects),
        8 => super::tangled::any_links(random, &mut made, &objects),
        9 => positions(random, &mut made),
        10 => lists(random, &mut made, &objects),
        _ => super::tangled::landing(random, &mut made, &objects),
    }
    made.image
}

/// Types, flags, sizes, the tail object and the arena's end.
fn walk(random: &mut Random, made: &mut Rendered, objects: &[Object]) {
    for object in some_of(random, objects) {
        match random.below(6) {
            0 => made.set_byte(object.offset + 1, random.word() as u8),
            1 => made.set_byte(object.offset, between(random, 0, 9) as u8),
            2 => made.set(object.offset + 8, edge(random, object.size)),
            _ => {}
        }
    }
    let first = made.draft.header_size;
    if once_in(random, 3) {
        let any = between(random, 0, made.arena_end + 16);
        let object = pick(random, objects).offset;
        made.set(header::TAIL_OBJECT_OFFSET, pick(random, &[any, object, 0]));
    }
    if once_in(random, 3) {
        let any = between(random, 0, (made.arena_end - first) / 8);
        let object = pick(random, objects).offset - first;
        let size = pick(random, &[8 * any, object, object + 8, 0]);
        made.set(header::ARENA_SIZE, size);
    }
}

/// The committed items, their number and what is compared of their entries, in small numbers.
fn positions(random: &mut Random, made: &mut Rendered) {
    let image = Image::walked(&made.image);
    let items = image.chain_items(image.word(header::ENTRY_ARRAY_OFFSET));
    let entries: Vec<u64> = of_kind(&image, kind::ENTRY);
    for (at, _) in some_of(random, &items) {
        if !entries.is_empty() && once_in(random, 3) {
            made.set_item(at, pick(random, &entries));
        }
        if once_in(random, 16) {
            let wrong = wrong_target(random, made, kind::ENTRY);
            made.set_item(at, pick(random, &[0, wrong]));
        }
    }
    let near = items.iter().map(|&(_, entry)| entry);
    for (n, here) in (1..).zip(near.filter(|it| entries.contains(it))) {
        let small = between(random, 0, n);
        match random.below(6) {
            0 => made.set(here + entry::SEQNUM, small),
            1 => made.set(here + entry::MONOTONIC, small),
            2 => {
                made.set(here + entry::BOOT_ID, small % 2);
                made.set(here + entry::BOOT_ID + 8, 0);
            }
            _ => {}
        }
    }
    if once_in(random, 3) {
        let count = between(random, 0, items.len() as u64 + 2);
        made.set(header::N_ENTRIES, count);
    }
}

/// Counts and links of the DATA's lists, and the items of arrays that are not the header's.
fn lists(random: &mut Random, made: &mut Rendered, objects: &[Object]) {
    let image = Image::walked(&made.image);
    let entries: Vec<u64> = of_kind(&image, kind::ENTRY);
    let arrays: Vec<u64> = of_kind(&image, kind::ENTRY_ARRAY);
    let of_header = image.arrays(image.word(header::ENTRY_ARRAY_OFFSET));
    let or_0 = |random: &mut Random, offsets: &[u64]| match offsets.is_empty() || once_in(random, 4)
    {
        true => 0,
        false => pick(random, offsets),
    };
    for object in objects {
        let here = object.offset;
        let free = object.kind == kind::ENTRY_ARRAY && !of_header.contains(object);
        if object.kind == kind::DATA {
            let few = between(random, 0, entries.len() as u64 + 1);
            match random.below(8) {
                0 => made.set(here + data::N_ENTRIES, pick(random, &[few, few, u64::MAX])),
                1 => made.set(here + data::ENTRY_OFFSET, or_0(random, &entries)),
                2 => made.set(here + data::ENTRY_ARRAY_OFFSET, or_0(random, &arrays)),
                _ => {}
            }
        }
        if free && once_in(random, 3) {
            let item = made.draft.layout.array_item();
            let place = random.below(((object.size - array::ITEMS) / item) as usize) as u64;
            let to = or_0(random, &entries);
            made.set_item(here + array::ITEMS + item * place, to);
        }
    }
}

fn of_kind(image: &Image, kind: u8) -> Vec<u64> {
    let objects = image.of_kind(kind).into_iter();
    objects.map(|object| object.offset).collect()
}
