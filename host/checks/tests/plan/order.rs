//! 17: sequence numbers and monotonic times against those of the last committed entry; a wall time may
//! be any.
use checks::generator::worked::request;
use reading::request::{packed, Request};

use crate::made::{made, Tried, BOOT};

/// Numbers on both sides of 0, 2^63 and 2^64.
fn edges() -> Vec<u64> {
    let mut edges = vec![0, 1, 2, 255, 256, 1 << 32, u64::MAX - 1, u64::MAX];
    edges.extend([-2, -1, 0, 1].map(|n| (1u64 << 63).wrapping_add_signed(n)));
    edges
}

#[test]
fn first_entries() {
    let mut tried = Tried::default();
    let fields = packed(&[b"A=1"]);
    for keyed in [false, true] {
        let image = made(1024, (1, 1), keyed);
        for number in edges() {
            // Only a sequence number of 0 is refused: there is nothing to compare the times with.
            let refused = if number == 0 { 17 } else { 0 };
            let ask = request(&fields, number, 5, 5);
            assert_eq!(tried.append(&image, ask), refused);
            let ask = request(&fields, 1, number, !number);
            assert_eq!(tried.append(&image, ask), 0);
        }
    }
}

/// Every two of the edges, one in the last entry and one in the request.
#[test]
fn later_entries() {
    let mut tried = Tried::default();
    let fields = packed(&[b"A=1"]);
    for last in edges() {
        for next in edges() {
            let mut image = made(1024, (1, 1), next % 2 == 0);
            if last > 0 {
                tried.carried(&mut image, request(&fields, last, 5, 5));
                let number = if next > last { 0 } else { 17 };
                let ask = request(&fields, next, 5, 5);
                assert_eq!(tried.append(&image, ask), number, "{last} and {next}");
            }

            let mut image = made(1024, (1, 1), next % 2 == 0);
            tried.carried(&mut image, request(&fields, 1, last, last));
            let other = [[5; 15].to_vec(), vec![4]].concat();
            for boot_id in [BOOT, other[..].try_into().expect("16 bytes")] {
                let ask = |realtime: u64, monotonic: u64| Request {
                    boot_id,
                    ..request(&fields, 2, realtime, monotonic)
                };
                // Monotonic times are compared in one boot alone, and wall times not at all.
                let number = match boot_id == BOOT && next < last {
                    true => 17,
                    false => 0,
                };
                assert_eq!(tried.append(&image, ask(next, last)), 0);
                assert_eq!(tried.append(&image, ask(last, next)), number);
            }
        }
    }
    tried.print("later entries");
}
