//! 6: the object at fault, or "a walk that misses the tail, at the arena's end too, names the last object
//! walked, or 0".
use super::sample::{drawn, sample, Form};
use super::{changed, Case};
use crate::generator::rendered::Rendered;
use reading::image::Image;
use reading::layout::{header, kind};

pub fn cases(form: Form) -> Vec<Case> {
    let made = drawn(&sample(form));
    let objects = Image::walked(&made.image).objects;
    let offsets: Vec<u64> = objects.iter().map(|object| object.offset).collect();
    let end = objects[objects.len() - 1].next() as u64;
    [
        tails(&made, &offsets, end),
        arenas(&made, &offsets, end),
        objects_at_fault(&made, &offsets),
        pairs(&made, &offsets),
    ]
    .into_iter()
    .flatten()
    .collect()
}

/// Another tail_object_offset.
fn tails(made: &Rendered, offsets: &[u64], end: u64) -> Vec<Case> {
    let mut cases = Vec::new();
    let mut tail = |made: &Rendered, at: u64, place: u64| {
        let image = changed(made, |it| it.set(header::TAIL_OBJECT_OFFSET, at));
        let what = format!("tail_object_offset {at}");
        cases.push(Case::new(what, &image, 6, place));
    };
    let first = made.draft.header_size;
    for at in [0, 1, 8, 136, 255, first - 8, first - 1] {
        tail(made, at, 0);
    }
    let mut ends = offsets[1..].to_vec();
    ends.push(end);
    for (&offset, next) in offsets.iter().zip(ends) {
        for at in [offset + 1, offset + 8, next - 8, next - 1] {
            tail(made, at, offset);
        }
    }
    // Behind the objects there are zeros, and no object begins so.
    for at in [end, made.arena_end, made.arena_end + 8, u64::MAX] {
        tail(made, at, end);
    }
    // Without them the arena ends with the last object.
    let mut tight = made.clone();
    tight.set(header::ARENA_SIZE, end - first);
    for at in [end, end + 1, end + 16, 1 << 32, u64::MAX] {
        tail(&tight, at, offsets[offsets.len() - 1]);
    }
    tight.set(header::ARENA_SIZE, 0);
    for at in [first, first + 8, u64::MAX] {
        tail(&tight, at, 0);
    }
    cases
}

/// An arena that ends before, in or behind each object.
fn arenas(made: &Rendered, offsets: &[u64], end: u64) -> Vec<Case> {
    let mut cases = Vec::new();
    let mut arena = |arena_end: u64, tail: u64, place: u64| {
        let image = changed(made, |it| {
            it.set(header::ARENA_SIZE, arena_end - it.draft.header_size);
            it.set(header::TAIL_OBJECT_OFFSET, tail);
        });
        let what = format!("an arena up to {arena_end}, tail_object_offset {tail}");
        cases.push(Case::new(what, &image, 6, place));
    };
    let mut before = 0;
    for &offset in offsets {
        // The object behind the arena's end is not walked; the one before it is.
        arena(offset, made.tail, before);
        arena(offset, offset, before);
        before = offset;
        // A fragment of 8 bytes is no object, and is named all the same.
        for tail in [made.tail, offset, u64::MAX] {
            arena(offset + 8, tail, offset);
        }
        arena(offset + 16, offset, offset);
    }
    arena(end + 8, u64::MAX, end);
    arena(end + 8, end, end);
    arena(end + 8, end + 8, end);
    cases
}

/// One object whose type, flags or size is wrong.
fn objects_at_fault(made: &Rendered, offsets: &[u64]) -> Vec<Case> {
    let mut cases = Vec::new();
    for &at in offsets {
        let mut wrong = |what: &str, change: &dyn Fn(&mut Rendered)| {
            let what = format!("{what} at {at}");
            cases.push(Case::new(what, &changed(made, change), 6, at));
        };
        wrong("type 0", &|it| it.set_byte(at, 0));
        for bit in 0..3 {
            wrong("flags", &|it| it.set_byte(at + 1, 1 << bit));
        }
        for size in [0, 15, 1 << 63, u64::MAX - 7, u64::MAX] {
            wrong("a size", &|it| it.set(at + 8, size));
        }
        // One object up to the arena's end, and 8 bytes past it.
        wrong("all others in an object", &|it| {
            it.set_byte(at, kind::DATA);
            it.set(at + 8, it.arena_end - at);
            it.set(header::TAIL_OBJECT_OFFSET, it.arena_end);
        });
        wrong("an object past the end", &|it| {
            it.set_byte(at, 200);
            it.set(at + 8, it.arena_end + 8 - at);
        });
    }
    cases
}

/// Two objects with flags that no object has, and a tail that is missed before and behind.
fn pairs(made: &Rendered, offsets: &[u64]) -> Vec<Case> {
    let mut cases = Vec::new();
    for (i, &one) in offsets.iter().enumerate() {
        for &other in &offsets[i + 1..] {
            let flags = changed(made, |it| {
                it.set_byte(other + 1, 1);
                it.set_byte(one + 1, 4);
            });
            cases.push(Case::new("two objects' flags", &flags, 6, one));
            let missed = changed(made, |it| {
                it.set_byte(one + 1, 2);
                it.set(header::TAIL_OBJECT_OFFSET, other + 8);
            });
            cases.push(Case::new("flags, and a tail missed", &missed, 6, one));
            // The one with the flags is not walked.
            let before = changed(made, |it| {
                it.set_byte(other + 1, 2);
                it.set(header::TAIL_OBJECT_OFFSET, one + 8);
            });
            cases.push(Case::new("a tail missed, and flags", &before, 6, one));
        }
    }
    cases
}
