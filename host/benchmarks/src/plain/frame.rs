//! Refusals 1 to 7 and the object map.
use super::bytes::{first_object, next, u32_at, u64_at, LEAST_HEADER, LONGEST_IMAGE};

/// Refusals 1 to 7: a pass over the objects for 6 and one for 7.
pub fn refusal(image: &[u8]) -> u64 {
    match header_refusal(image) {
        0 => {}
        number => return number,
    }
    let (arena, tail) = arena(image);
    if walk_fault(arena, tail) {
        return 6;
    }
    if tables_fault(arena, tail) {
        return 7;
    }
    0
}

/// The same with one pass for both.
pub fn refusal_in_one_pass(image: &[u8]) -> u64 {
    in_one_pass(image, |_, _| {})
}

/// Refusals 1 to 7, and then a pass that makes the object map in an array of its own: the refusal,
/// or 8 and the map's number for the object at `at`.
pub fn map(image: &[u8], at: u64) -> u64 {
    match refusal(image) {
        0 => {}
        number => return number,
    }
    let mut map = [0u8; LONGEST_IMAGE / 8];
    let (arena, tail) = arena(image);
    let mut object = first_object(arena);
    while object as u64 <= tail {
        map[object / 8] = arena[object].min(8);
        object = next(arena, object);
    }
    8 + slot(&map, at)
}

/// The same with one pass for all.
pub fn map_in_one_pass(image: &[u8], at: u64) -> u64 {
    let mut map = [0u8; LONGEST_IMAGE / 8];
    match in_one_pass(image, |object, kind| map[object / 8] = kind.min(8)) {
        0 => 8 + slot(&map, at),
        number => number,
    }
}

fn slot(map: &[u8], at: u64) -> u64 {
    match at % 8 {
        0 => map.get((at / 8) as usize).copied().unwrap_or(0).into(),
        _ => 0,
    }
}

/// Refusals 1 to 7 in one pass, which shows each object that has no fault.
#[inline(always)]
fn in_one_pass(image: &[u8], mut shown: impl FnMut(usize, u8)) -> u64 {
    match header_refusal(image) {
        0 => {}
        number => return number,
    }
    let (arena, tail) = arena(image);
    let mut tables = 0;
    let mut at = first_object(arena);
    while (at as u64) < tail {
        if object_fault(arena, at) {
            return 6;
        }
        shown(at, arena[at]);
        tables += usize::from(is_table(arena[at]));
        at = next(arena, at);
    }
    if at as u64 != tail || object_fault(arena, at) {
        return 6;
    }
    shown(at, arena[at]);
    tables += usize::from(is_table(arena[at]));
    let first = first_object(arena);
    if tables != 2 || tail == first as u64 {
        return 7;
    }
    let second = next(arena, first);
    if !given(arena, first, second) && !given(arena, second, first) {
        return 7;
    }
    0
}

fn header_refusal(image: &[u8]) -> u64 {
    if image.len() < LEAST_HEADER {
        return 1;
    }
    if image.len() > LONGEST_IMAGE {
        return 2;
    }
    if &image[..8] != b"LPKSHHRH" {
        return 3;
    }
    if u32_at(image, 12) & !4 != 0 {
        return 4;
    }
    let (header_size, arena_size) = (u64_at(image, 88), u64_at(image, 96));
    let sum = header_size.checked_add(arena_size);
    let fits = sum.is_some_and(|end| end <= image.len() as u64);
    match matches!(header_size, 256 | 264 | 272) && arena_size % 8 == 0 && fits {
        true => 0,
        false => 5,
    }
}

/// The image up to the arena's end, and tail_object_offset.
fn arena(image: &[u8]) -> (&[u8], u64) {
    let end = first_object(image) + u64_at(image, 96) as usize;
    (&image[..end], u64_at(image, 136))
}

fn walk_fault(arena: &[u8], tail: u64) -> bool {
    let mut at = first_object(arena);
    while (at as u64) < tail {
        if object_fault(arena, at) {
            return true;
        }
        at = next(arena, at);
    }
    at as u64 != tail || object_fault(arena, at)
}

#[inline]
fn object_fault(arena: &[u8], at: usize) -> bool {
    let Some(head) = arena.get(at..at + 16) else {
        return true;
    };
    let size = u64_at(head, 8);
    let wrong = match head[0] {
        0 => true,
        1 => size < 65,
        2 => size < 41,
        3 => size < 80 || size % 16 != 0,
        4 | 5 => size < 32 || size % 16 != 0,
        6 => size < 32 || size % 8 != 0,
        7 => size != 64,
        _ => size < 16,
    };
    wrong || head[1] & 7 != 0 || size > (arena.len() - at) as u64
}

fn tables_fault(arena: &[u8], tail: u64) -> bool {
    let first = first_object(arena);
    if tail == first as u64 {
        return true;
    }
    let second = next(arena, first);
    if !given(arena, first, second) && !given(arena, second, first) {
        return true;
    }
    let mut at = next(arena, second);
    while at as u64 <= tail {
        if is_table(arena[at]) {
            return true;
        }
        at = next(arena, at);
    }
    false
}

fn is_table(kind: u8) -> bool {
    matches!(kind, 4 | 5)
}

/// The data and the field table, as the header gives them.
fn given(arena: &[u8], data: usize, field: usize) -> bool {
    let table = |at: usize, kind: u8, offset: usize| {
        arena[at] == kind
            && u64_at(arena, offset) == at as u64 + 16
            && u64_at(arena, offset + 8) == u64_at(arena, at + 8) - 16
    };
    table(data, 4, 104) && table(field, 5, 120)
}
