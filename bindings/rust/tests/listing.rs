//! The listing of document 01, call by call.

use packet_window::{Inserted, OwnedMemory, Refusal, Window};

/// len, retired_held, promotions, demotions
fn counts(window: &Window) -> [u64; 4] {
    [window.len().into(), window.retired_held().into(), window.promotions(), window.demotions()]
}

#[test]
fn the_listing() {
    let mut memory = OwnedMemory::new(64);
    let mut window = Window::new(memory.lend(), 64, 2, 1).expect("within the limits");
    assert_eq!(counts(&window), [0, 0, 0, 0]);

    let inserts = [
        (5, 50, Ok(Inserted::New), [1, 0, 0, 0]),
        (69, 51, Err(Refusal::Occupied), [1, 0, 0, 0]),
        (6, 60, Ok(Inserted::New), [2, 0, 0, 0]),
        (7, 70, Ok(Inserted::New), [3, 0, 1, 0]),
    ];
    for (sequence, value, answer, after) in inserts {
        let outcome = window.insert(sequence, value);
        assert_eq!(outcome.answer, answer, "insert {sequence}");
        assert!(outcome.returned.is_empty());
        assert_eq!(counts(&window), after, "after insert {sequence}");
    }

    let outcome = window.remove_range(6, 7);
    assert_eq!(outcome.answer, Ok(2));
    assert_eq!(outcome.returned, [60, 70]);
    assert_eq!(counts(&window), [1, 0, 1, 1]);

    let outcome = window.clear();
    assert_eq!(outcome.answer, Ok(()));
    assert_eq!(outcome.returned, [50]);
    assert_eq!(counts(&window), [0, 0, 1, 1]);

    assert_eq!(window.successor_after(5), Ok(None));
    assert_eq!(counts(&window), [0, 0, 1, 1]);
}
