//! How an export is called.

/// Declares an export of a proved archive and calls it, which the caller marks as `unsafe`. The
/// word before an argument says how it passes: `read` for a `&[u8]` and `write` for a `&mut [u8]`,
/// which are a pointer and then a length; `array` for a `&[u8; N]`, which is a pointer alone;
/// `number` for a `u64`.
///
/// So far as the declared types are those of the export, a call is sound: a pointer and its length
/// are of one slice, borrowed for the whole call and, where it is written, by nobody else; and by
/// its proved promise an export touches no other byte and keeps no pointer. A struct that comes
/// back has to be `repr(C)`.
#[macro_export]
macro_rules! call {
    ($export:ident($($way:ident $argument:ident),*) -> $answer:ty) => {
        $crate::call!(@ $export -> $answer, [] $($way $argument)*)
    };
    (@ $export:ident -> $answer:ty, [$($done:tt)*] read $slice:ident $($rest:tt)*) => {
        $crate::call!(@ $export -> $answer, [
            $($done)*
            *const u8 = <[u8]>::as_ptr($slice),
            usize = <[u8]>::len($slice),
        ] $($rest)*)
    };
    (@ $export:ident -> $answer:ty, [$($done:tt)*] write $slice:ident $($rest:tt)*) => {
        $crate::call!(@ $export -> $answer, [
            $($done)*
            *mut u8 = <[u8]>::as_mut_ptr($slice),
            usize = <[u8]>::len($slice),
        ] $($rest)*)
    };
    (@ $export:ident -> $answer:ty, [$($done:tt)*] array $array:ident $($rest:tt)*) => {
        $crate::call!(@ $export -> $answer, [
            $($done)*
            *const u8 = <[u8]>::as_ptr($array),
        ] $($rest)*)
    };
    (@ $export:ident -> $answer:ty, [$($done:tt)*] number $number:ident $($rest:tt)*) => {
        $crate::call!(@ $export -> $answer, [$($done)* u64 = $number,] $($rest)*)
    };
    (@ $export:ident -> $answer:ty, [$($type:ty = $value:expr,)*]) => {{
        extern "C" {
            fn $export($(_: $type),*) -> $answer;
        }
        $export($($value),*)
    }};
}
