//! The starred edge cases of document 01, those of the base and its point, of loss reports and of demotions by cause, and what the
//! interface itself adds: lengths, short lists, the iterator.

use packet_window::*;

/// A window of this size over `memory`, which must be long enough.
fn window(memory: &mut OwnedMemory, window_size: u32) -> Window<'_> {
    Window::new(memory.lend(), window_size, 8, 0).expect("within the limits")
}

/// Inserts one value, which is neither refused nor a replacement and returns nothing.
fn enter(window: &mut Window, sequence: u32, value: u32) {
    let outcome = window.insert(sequence, value);
    assert_eq!((outcome.answer, outcome.returned), (Ok(Inserted::New), [].as_slice()), "insert {sequence}");
}

fn refusal_of_new(window_size: u32, n: u32, demote_at: u32) -> Option<Refusal> {
    Window::new(OwnedMemory::new(65536).lend(), window_size, n, demote_at).err()
}

#[test]
fn version() {
    assert_eq!(library_version(), VERSION);
    assert_eq!(format!("{}.{}.{}", VERSION / 10000, VERSION / 100 % 100, VERSION % 100), env!("CARGO_PKG_VERSION"));
}

#[test]
fn limits_of_new() {
    assert_eq!(refusal_of_new(0, 8, 4), Some(Refusal::WindowSize));
    assert_eq!(refusal_of_new(1, 8, 4), None);
    assert_eq!(refusal_of_new(65536, 8, 4), None);
    assert_eq!(refusal_of_new(65537, 8, 4), Some(Refusal::WindowSize));
    assert_eq!(refusal_of_new(64, 0, 0), Some(Refusal::SparseCells));
    assert_eq!(refusal_of_new(64, 63, 0), None);
    assert_eq!(refusal_of_new(64, 64, 0), Some(Refusal::SparseCells));
    assert_eq!(refusal_of_new(64, 8, 8), None);
    assert_eq!(refusal_of_new(64, 8, 9), Some(Refusal::DemoteAt));
    assert_eq!(refusal_of_new(0, 64, 99), Some(Refusal::WindowSize));
    assert_eq!(refusal_of_new(64, 64, 99), Some(Refusal::SparseCells));
}

#[test]
fn a_short_list_is_refused_last_and_written_nowhere() {
    let shorten: [fn(&mut OwnedMemory); 5] = [
        |memory| memory.sequences.truncate(memory.sequences.len() - 1),
        |memory| memory.values.truncate(memory.values.len() - 1),
        |memory| memory.pages.truncate(memory.pages.len() - 1),
        |memory| memory.blocks.truncate(memory.blocks.len() - 1),
        |memory| memory.returned.truncate(memory.returned.len() - 1),
    ];
    for (list, shorten) in shorten.into_iter().enumerate() {
        let mut memory = OwnedMemory::new(100);
        memory.pages.fill(7);
        memory.blocks.fill(7);
        shorten(&mut memory);
        let before = memory.clone();
        assert_eq!(Window::new(memory.lend(), 100, 8, 9).err(), Some(Refusal::DemoteAt), "list {list}");
        assert_eq!(Window::new(memory.lend(), 100, 8, 8).err(), Some(Refusal::ShortMemory), "list {list}");
        assert_eq!(memory, before, "list {list}");
    }
}

#[test]
fn lengths_are_those_the_library_asks_for() {
    for window_size in [1, 63, 64, 65, 128, 129, 4096, 4097, 32768, 32769, 65535, 65536] {
        let mut memory = OwnedMemory::new(window_size);
        assert!(Window::new(memory.lend(), window_size, 1, 0).is_ok(), "window_size {window_size}");
    }
    assert_eq!((capacity(65), page_words(65), block_words(65)), (128, 6, 3));
    assert_eq!((capacity(65536), page_words(65536), block_words(65536)), (65536, 3072, 48));
}

#[test]
fn sequences_that_share_a_position() {
    let mut memory = OwnedMemory::new(65);
    let mut w = window(&mut memory, 65);
    enter(&mut w, 5, 50);
    enter(&mut w, 70, 51);
    assert_eq!(w.insert(133, 52).answer, Err(Refusal::Occupied));
    assert_eq!(w.insert(1073741829, 53).answer, Err(Refusal::Occupied));
    assert_eq!((w.get(5), w.get(133), w.get(1073741829)), (Ok(Some(50)), Ok(None), Ok(None)));
    assert_eq!((w.exchange(133, 54), w.remove(133)), (Ok(None), Ok(None)));
    assert_eq!(w.len(), 2);
}

#[test]
fn a_sequence_has_31_bits() {
    let mut memory = OwnedMemory::new(64);
    let mut w = window(&mut memory, 64);
    enter(&mut w, 5, 50);
    enter(&mut w, 2147483647, 51);
    let before = *w.header();
    for wide in [2147483648, 2147483653, 4294967295] {
        let inserted = w.insert(wide, 52);
        assert_eq!((inserted.answer, inserted.returned.len()), (Err(Refusal::Sequence), 0));
        assert_eq!((w.get(wide), w.exchange(wide, 52), w.remove(wide)), (Err(Refusal::Sequence), Err(Refusal::Sequence), Err(Refusal::Sequence)));
        assert_eq!((w.successor_after(wide), w.first_from(wide)), (Err(Refusal::Sequence), Err(Refusal::Sequence)));
        for (first, last) in [(wide, 5), (5, wide), (wide, wide), (wide, 2147483647)] {
            let removed = w.remove_range(first, last);
            assert_eq!((removed.answer, removed.returned.len()), (Err(Refusal::Sequence), 0), "{first} {last}");
            assert_eq!(w.stranger(first, last), Err(Refusal::Sequence), "{first} {last}");
            assert_eq!(w.write_losses(first, last, &mut []), Err(Refusal::Sequence), "{first} {last}");
            assert_eq!(w.read_losses(first, last, &[7], &mut []), Err(Refusal::Sequence), "{first} {last}");
        }
        assert_eq!(w.set_base(wide), Err(Refusal::Base));
    }
    assert_eq!((*w.header(), w.check()), (before, Ok(())));
    assert_eq!((w.get(2147483647), w.stranger(2147483647, 0)), (Ok(Some(51)), Ok(None)));
    assert_eq!((w.remove(2147483647), w.remove(5)), (Ok(Some(51)), Ok(Some(50))));
}

#[test]
fn the_same_sequence_again() {
    let mut memory = OwnedMemory::new(64);
    let mut w = window(&mut memory, 64);
    enter(&mut w, 5, 50);
    assert_eq!(w.insert(5, 51).answer, Ok(Inserted::Replaced(50)));
    assert_eq!(w.exchange(5, 52), Ok(Some(51)));
    assert_eq!((w.len(), w.remove(5), w.len()), (1, Ok(Some(52)), 0));
}

#[test]
fn count_of_a_range() {
    let mut memory = OwnedMemory::new(64);
    let mut w = window(&mut memory, 64);
    for sequence in [0, 1, 62, 63] {
        enter(&mut w, sequence, 100 + sequence);
    }
    assert_eq!(w.remove_range(0, 64).answer, Err(Refusal::RangeCount));
    assert_eq!(w.remove_range(5, 4).answer, Err(Refusal::RangeCount));
    assert_eq!(w.len(), 4);
    let outcome = w.remove_range(2147483647, 0);
    assert_eq!((outcome.answer, outcome.returned), (Ok(2), [163, 100].as_slice()));
    assert_eq!(w.remove_range(0, 63).answer, Ok(2));
}

#[test]
fn the_only_value_succeeds_itself() {
    let mut memory = OwnedMemory::new(64);
    let mut w = window(&mut memory, 64);
    assert_eq!((w.successor_after(9), w.first_from(9)), (Ok(None), Ok(None)));
    enter(&mut w, 9, 90);
    for from in [8, 9, 10] {
        assert_eq!((w.successor_after(from), w.first_from(from)), (Ok(Some(9)), Ok(Some(9))));
    }
    enter(&mut w, 20, 91);
    assert_eq!((w.successor_after(9), w.first_from(9)), (Ok(Some(20)), Ok(Some(9))));
}

#[test]
fn base_and_point() {
    let mut memory = OwnedMemory::new(65);
    let mut w = window(&mut memory, 65);
    assert_eq!((w.base(), w.point()), (0, 0));
    enter(&mut w, 1, 10);
    assert_eq!((w.take_front(), w.base(), w.point()), (Ok(None), 0, 0));
    enter(&mut w, 0, 11);
    assert_eq!((w.base(), w.point()), (0, 2));
    assert_eq!((w.take_front(), w.base(), w.point(), w.len()), (Ok(Some(11)), 1, 2, 1));
    assert_eq!((w.set_base(2147483648), w.base(), w.point()), (Err(Refusal::Base), 1, 2));
    assert_eq!((w.set_base(0), w.base(), w.point(), w.len()), (Ok(()), 0, 0, 1));
    assert_eq!((w.set_base(2147483647), w.point()), (Ok(()), 2147483647));
    enter(&mut w, 2147483647, 12);
    assert_eq!(w.point(), 0);
    assert_eq!((w.take_front(), w.base(), w.point()), (Ok(Some(12)), 0, 0));
}

#[test]
fn the_point_is_at_most_window_size_from_the_base() {
    let mut memory = OwnedMemory::new(65);
    let mut w = window(&mut memory, 65);
    assert_eq!(w.set_base(2147483600), Ok(()));
    for steps in 0..66 {
        enter(&mut w, (2147483600 + steps) % 2147483648, steps);
    }
    assert_eq!((w.point(), w.get(w.point())), (17, Ok(Some(65))));
    assert_eq!((w.remove(2147483610), w.point()), (Ok(Some(10)), 2147483610));
    enter(&mut w, 2147483610, 10);
    assert_eq!((w.take_front(), w.point()), (Ok(Some(0)), 18));
    assert_eq!((w.clear().answer, w.base(), w.point()), (Ok(()), 2147483601, 2147483601));
}

#[test]
fn an_alias_or_a_retired_value_is_none_of_the_base() {
    let mut memory = OwnedMemory::new(64);
    let mut w = window(&mut memory, 64);
    enter(&mut w, 64, 7);
    assert_eq!((w.point(), w.take_front(), w.base()), (0, Ok(None), 0));
    assert_eq!(w.remove(64), Ok(Some(7)));
    enter(&mut w, 0, 8);
    assert_eq!(w.clear_bounded(0).answer, Ok(0));
    assert_eq!((w.point(), w.take_front(), w.retired_held()), (0, Ok(None), 1));
}

#[test]
fn budgets() {
    let mut memory = OwnedMemory::new(64);
    let mut w = window(&mut memory, 64);
    enter(&mut w, 9, 90);
    assert_eq!(w.release_retired(257).answer, Err(Refusal::Budget));
    assert_eq!(w.clear_bounded(257).answer, Err(Refusal::Budget));
    assert_eq!(w.len(), 1);
    assert_eq!(w.release_retired(256).answer, Ok(Released { values: 0, units: 0 }));
    let outcome = w.clear_bounded(256);
    assert_eq!((outcome.answer, outcome.returned), (Ok(1), [90].as_slice()));
}

/// Window 512 with sequences 0 to 511, sequence s with the value 1000 + s, cleared once.
fn cleared(memory: &mut OwnedMemory) -> Window<'_> {
    let mut w = window(memory, 512);
    for sequence in 0..512 {
        enter(&mut w, sequence, 1000 + sequence);
    }
    let outcome = w.clear();
    assert_eq!((outcome.answer, outcome.returned.len()), (Ok(()), 252));
    assert_eq!((w.len(), w.retired_held(), w.is_released()), (0, 260, false));
    w
}

#[test]
fn release_after_clear() {
    let mut memory = OwnedMemory::new(512);
    let mut w = cleared(&mut memory);
    let outcome = w.release_retired(1);
    assert_eq!((outcome.answer, outcome.returned.len()), (Ok(Released { values: 0, units: 1 }), 0));
    let outcome = w.release_retired(2);
    assert_eq!((outcome.answer, outcome.returned.len()), (Ok(Released { values: 1, units: 2 }), 1));
    while w.has_retired() {
        assert!(w.release_retired(MAX_RETIRED_RELEASED_PER_VISIT).answer.is_ok_and(|released| released.values > 0));
    }
    assert!(w.is_released());
}

#[test]
fn insert_after_clear() {
    let mut memory = OwnedMemory::new(512);
    enter(&mut cleared(&mut memory), 100, 1);
    let mut w = cleared(&mut memory);
    let outcome = w.insert(250, 1);
    assert_eq!((outcome.answer, outcome.returned), (Ok(Inserted::New), [1252, 1253, 1254, 1255].as_slice()));
}

#[test]
fn iterator_goes_by_page_then_cell_and_ends() {
    let mut memory = OwnedMemory::new(128);
    let mut w = window(&mut memory, 128);
    for (sequence, value) in [(70, 1), (9, 2), (3, 3), (6, 4)] {
        enter(&mut w, sequence, value);
    }
    let pairs: Result<Vec<_>, _> = w.iter().collect();
    assert_eq!(pairs, Ok(vec![(9, 2), (3, 3), (6, 4), (70, 1)]));
    let mut iter = w.into_iter();
    assert_eq!(iter.by_ref().count(), 4);
    assert_eq!(iter.next(), None);
}

/// Document 02, S-2: a retired word for each block from the given cell's to the found pair's, or to the last.
#[test]
fn a_step_reads_one_word_for_each_block() {
    let mut memory = OwnedMemory::new(65536);
    let mut w = window(&mut memory, 65536);
    let reads = |w: &Window<'_>, cell: u32| w.step(cell).map(|step| (step.next.map(|pair| pair.cell), step.reads));
    for (cell, due) in [(0, 16), (4095, 16), (4096, 15), (65535, 1), (65536, 0), (u32::MAX, 0)] {
        assert_eq!(reads(&w, cell), Ok((None, due)));
    }
    enter(&mut w, 5 * 4096 + 3, 7);
    let pair = NextPair { sequence: 5 * 4096 + 3, value: 7, cell: 5 * 4096 + 1 };
    assert_eq!(w.step(0), Ok(Step { next: Some(pair), reads: 6 }));
    assert_eq!(reads(&w, 5 * 4096), Ok((Some(pair.cell), 1)));
    assert_eq!(reads(&w, pair.cell), Ok((None, 11)));
    // Nothing is released: both values are under block marks.
    enter(&mut w, 3, 8);
    assert_eq!(w.clear_bounded(0).answer, Ok(0));
    assert_eq!((reads(&w, 0), reads(&w, 5 * 4096)), (Ok((None, 16)), Ok((None, 11))));
}

#[test]
fn strangers() {
    let mut memory = OwnedMemory::new(64);
    let mut w = window(&mut memory, 64);
    enter(&mut w, 69, 51);
    assert_eq!(w.stranger(5, 5), Ok(Some((69, 51))));
    assert_eq!((w.stranger(69, 69), w.stranger(6, 68)), (Ok(None), Ok(None)));
    assert_eq!((w.stranger(0, 63), w.stranger(0, 64)), (Ok(Some((69, 51))), Err(Refusal::RangeCount)));
    enter(&mut w, 2147483647, 52);
    assert_eq!((w.stranger(2147483647, 0), w.stranger(63, 63)), (Ok(None), Ok(Some((2147483647, 52)))));
}

/// The loss list of a range, which places past it do not show, and which reads back as the losses that `get` tells.
fn losses(w: &Window, first: u32, last: u32) -> Vec<u32> {
    let count = (last.wrapping_sub(first) & 0x7fff_ffff) + 1;
    let mut places = vec![7; loss_words(count) + 1];
    let words = w.write_losses(first, last, &mut places).expect("places enough").to_vec();
    assert!(words.len() <= loss_words(count) && places[words.len()..].iter().all(|&place| place == 7), "{first} {last}");
    let due: Vec<u8> = (0..count).map(|steps| w.get((first + steps) & 0x7fff_ffff) == Ok(None)).map(u8::from).collect();
    let mut lost = vec![7; count as usize + 1];
    assert_eq!(w.read_losses(first, last, &words, &mut lost), Ok(due.iter().map(|&byte| u32::from(byte)).sum()), "{first} {last}");
    assert_eq!((&lost[..count as usize], lost[count as usize]), (&due[..], 7), "{first} {last}");
    words
}

#[test]
fn loss_lists() {
    let mut memory = OwnedMemory::new(64);
    let mut w = window(&mut memory, 64);
    assert_eq!(losses(&w, 5, 5), [5]);
    assert_eq!(losses(&w, 5, 6), [5, 6]);
    assert_eq!(losses(&w, 5, 7), [0x8000_0005, 7]);
    assert_eq!(losses(&w, 2147483647, 1), [0xffff_ffff, 1]);
    assert_eq!(losses(&w, 2147483646, 2147483647), [2147483646, 2147483647]);
    for sequence in [3, 70, 9, 2147483647] {
        enter(&mut w, sequence, sequence);
    }
    assert_eq!(losses(&w, 3, 3), []);
    assert_eq!(losses(&w, 2147483647, 9), [0x8000_0000, 2, 0x8000_0004, 8]); // 70 stands at the position of 6
    assert_eq!(losses(&w, 2147483640, 39), [0xffff_fff8, 2147483646, 0x8000_0000, 2, 0x8000_0004, 8, 0x8000_000a, 39]);
    assert_eq!(w.clear_bounded(0).answer, Ok(0));
    assert_eq!((losses(&w, 3, 4), w.retired_held()), (vec![3, 4], 4));
}

/// Every third sequence live: the list is as long as any.
#[test]
fn the_longest_loss_lists() {
    let mut memory = OwnedMemory::new(4096);
    let mut w = window(&mut memory, 4096);
    for sequence in (2..4096).step_by(3) {
        enter(&mut w, sequence, sequence);
    }
    for count in (1..100).chain([4094, 4095, 4096]) {
        assert_eq!(losses(&w, 0, count - 1).len(), loss_words(count));
    }
}

#[test]
fn loss_lists_are_refused_in_order_and_written_nowhere() {
    let mut memory = OwnedMemory::new(64);
    let w = window(&mut memory, 64);
    let (mut words, mut lost) = ([7; 2], [7; 4]);
    assert_eq!(w.write_losses(2147483648, 0, &mut words[..0]), Err(Refusal::Sequence));
    assert_eq!(w.write_losses(0, 64, &mut words[..0]), Err(Refusal::RangeCount));
    assert_eq!(w.write_losses(0, 63, &mut words[..1]), Err(Refusal::ShortList));
    assert_eq!(w.read_losses(0, 2147483648, &[9], &mut lost[..0]), Err(Refusal::Sequence));
    assert_eq!(w.read_losses(0, 64, &[9], &mut lost[..0]), Err(Refusal::RangeCount));
    assert_eq!(w.read_losses(0, 4, &[9], &mut lost), Err(Refusal::ShortList));
    assert_eq!(w.read_losses(0, 3, &[9], &mut lost), Err(Refusal::LossList));
    assert_eq!((words, lost), ([7; 2], [7; 4]));
    assert_eq!(w.write_losses(0, 63, &mut words), Ok([0x8000_0000, 63].as_slice()));
    assert_eq!((w.read_losses(0, 3, &[2, 3], &mut lost), lost), (Ok(2), [0, 0, 1, 1]));
    assert_eq!((w.read_losses(0, 2, &[], &mut lost), lost), (Ok(0), [0, 0, 0, 1]));
}

#[test]
fn lists_of_no_set_of_losses() {
    const RUN: u32 = 0x8000_0000;
    let mut memory = OwnedMemory::new(64);
    let w = window(&mut memory, 64);
    let wrong: [&[u32]; 16] = [
        &[2, 3, 4],              // three in a row
        &[RUN | 2, 2],           // a run of one
        &[RUN | 2, 3],           // a run of two
        &[RUN | 2, 4, 5],        // runs that touch
        &[1, RUN | 2, 4],
        &[RUN | 0, 2, RUN | 3, 5],
        &[RUN | 2, 1],           // from later to earlier
        &[5, 3],
        &[3, 3],
        &[RUN | 2, 4, RUN | 2, 4],
        &[2147483647],           // outside of the range
        &[10],
        &[RUN | 7, 10],
        &[RUN | 2],              // a run without its last
        &[3, RUN | 5],
        &[RUN | 2, RUN | 4],     // a last with its top bit
    ];
    let mut lost = [7; 10];
    for words in wrong {
        assert_eq!(w.read_losses(0, 9, words, &mut lost), Err(Refusal::LossList), "{words:?}");
    }
    assert_eq!(lost, [7; 10]);
    for (words, count) in [(&[2, 3][..], 2), (&[RUN | 2, 4], 3), (&[RUN, 9], 10), (&[0, 2, 3, RUN | 5, 9], 8), (&[9], 1)] {
        assert_eq!(w.read_losses(0, 9, words, &mut lost), Ok(count), "{words:?}");
    }
}

/// A window of 256 with N 4 and demote_at 2, and these sequences: a page of more than 4 is dense, and one left with 2 becomes sparse.
fn thinned_at_2(memory: &mut OwnedMemory, sequences: impl IntoIterator<Item = u32>) -> Window<'_> {
    let mut w = Window::new(memory.lend(), 256, 4, 2).expect("within the limits");
    for sequence in sequences {
        enter(&mut w, sequence, sequence);
    }
    w
}

/// Demotions: single, of ranges, all.
fn demotions(w: &Window) -> [u64; 3] {
    [w.single_demotions(), w.range_demotions(), w.demotions()]
}

#[test]
fn demotions_by_remove() {
    let mut memory = OwnedMemory::new(256);
    let mut w = thinned_at_2(&mut memory, 0..8);
    assert_eq!((w.promotions(), demotions(&w)), (1, [0, 0, 0]));
    for (sequence, single) in [(0, 0), (1, 0), (2, 0), (2, 0), (3, 0), (4, 0), (5, 1), (5, 1), (6, 1), (7, 1)] {
        assert!(w.remove(sequence).is_ok());
        assert_eq!(demotions(&w), [single, 0, single], "remove {sequence}, {} left", w.len());
    }
    assert_eq!((w.len(), w.remove(1 << 31), demotions(&w)), (0, Err(Refusal::Sequence), [1, 0, 1]));
}

#[test]
fn demotions_by_take_front() {
    let mut memory = OwnedMemory::new(256);
    let mut w = thinned_at_2(&mut memory, 64..72);
    assert_eq!((w.take_front(), demotions(&w)), (Ok(None), [0, 0, 0]));
    assert_eq!((w.set_base(64), demotions(&w)), (Ok(()), [0, 0, 0]));
    for left in (0..8).rev() {
        assert_eq!(w.take_front(), Ok(Some(71 - left)));
        let single = u64::from(left <= 2);
        assert_eq!(demotions(&w), [single, 0, single], "{left} left");
    }
    assert_eq!((w.take_front(), demotions(&w)), (Ok(None), [1, 0, 1]));
}

/// The sequences 56 to 71, eight in each of two pages, both dense; a range takes a part of each.
#[test]
fn demotions_by_remove_range() {
    for (first, last, range) in [
        (60, 67, 0), // four left in each
        (58, 67, 1), // two left in the first
        (60, 69, 1), // two left in the second
        (58, 69, 2), // two left in each
        (56, 69, 1), // the first emptied, two left in the second
        (58, 71, 1), // two left in the first, the second emptied
        (56, 71, 0), // both emptied
        (58, 63, 1), // one page alone
        (72, 80, 0), // nothing there
    ] {
        let mut memory = OwnedMemory::new(256);
        let mut w = thinned_at_2(&mut memory, 56..72);
        assert_eq!((w.promotions(), demotions(&w)), (2, [0, 0, 0]));
        assert!(w.remove_range(first, last).answer.is_ok());
        assert_eq!(demotions(&w), [0, range, range], "{first} to {last}");
        assert_eq!(w.remove_range(0, 256).answer, Err(Refusal::RangeCount));
        assert_eq!(demotions(&w), [0, range, range], "{first} to {last}, then a refused one");
    }
}

/// Document 01 lets each stretch of such a range test by itself: the first leaves two, the second takes them.
#[test]
fn a_demotion_by_a_range_that_goes_round_into_its_page() {
    let mut memory = OwnedMemory::new(64);
    let mut w = Window::new(memory.lend(), 64, 4, 2).expect("within the limits");
    for sequence in [0, 1, 58, 59, 60, 61, 62, 63] {
        enter(&mut w, sequence, sequence);
    }
    assert_eq!((w.remove_range(58, 65).answer, w.len(), demotions(&w)), (Ok(8), 0, [0, 1, 1]));
}

#[test]
fn an_emptied_page_is_no_demotion() {
    let mut memory = OwnedMemory::new(256);
    let mut w = thinned_at_2(&mut memory, (0..8).chain(66..74).chain(128..136));
    assert_eq!((w.remove_range(65, 80).answer, demotions(&w)), (Ok(8), [0, 0, 0])); // a part of a page, with all its values
    assert_eq!((w.remove_range(128, 191).answer, demotions(&w)), (Ok(8), [0, 0, 0])); // a whole page
    assert_eq!((w.clear().answer, w.len(), demotions(&w)), (Ok(()), 0, [0, 0, 0]));
    assert_eq!((w.promotions(), w.check()), (3, Ok(())));
    // With a demote_at of 0 single removals empty a dense page.
    let mut w = Window::new(memory.lend(), 256, 4, 0).expect("within the limits");
    (0..8).for_each(|sequence| enter(&mut w, sequence, sequence));
    assert!((0..8).all(|sequence| w.remove(sequence) == Ok(Some(sequence))));
    assert_eq!((w.promotions(), w.len(), demotions(&w)), (1, 0, [0, 0, 0]));
}

#[test]
fn calls_that_demote_no_page_leave_both_counts() {
    let mut memory = OwnedMemory::new(256);
    let mut w = thinned_at_2(&mut memory, (56..72).chain(128..136));
    assert_eq!((w.remove_range(58, 69).answer, demotions(&w)), (Ok(12), [0, 2, 2]));
    assert!((128..134).all(|sequence| w.remove(sequence) == Ok(Some(sequence))));
    assert_eq!(demotions(&w), [1, 2, 3]);
    enter(&mut w, 60, 60);
    assert_eq!((w.insert(60, 61).answer, w.exchange(60, 62)), (Ok(Inserted::Replaced(60)), Ok(Some(61))));
    assert_eq!((w.get(60), w.first_from(60), w.successor_after(60)), (Ok(Some(62)), Ok(Some(60)), Ok(Some(70))));
    assert_eq!((w.set_base(60), w.stranger(0, 255), w.iter().count(), w.check()), (Ok(()), Ok(None), 7, Ok(())));
    assert_eq!(w.write_losses(60, 60, &mut []), Ok([].as_slice()));
    assert_eq!((w.clear_bounded(1).answer, w.release_retired(256).answer.is_ok(), w.clear().answer), (Ok(1), true, Ok(())));
    assert_eq!((w.is_released(), demotions(&w)), (true, [1, 2, 3]));
}

/// A count of 2^64 - 1 is followed by 0; the other stays, and the sum wraps as well.
#[test]
fn counts_of_demotions_wrap() {
    const MOST: u64 = u64::MAX;
    let at = |memory: &mut OwnedMemory, single: u64, range: u64, demote: fn(&mut Window)| {
        let (mut header, memory) = thinned_at_2(memory, 56..72).into_parts();
        (header.single_demotions, header.range_demotions) = (single, range);
        let mut w = Window::from_parts(header, memory).expect("a sound state");
        assert_eq!(demotions(&w), [single, range, single.wrapping_add(range)]);
        demote(&mut w);
        assert_eq!(w.check(), Ok(()));
        demotions(&w)
    };
    let remove: fn(&mut Window) = |w| assert!((56..62).all(|sequence| w.remove(sequence) == Ok(Some(sequence))));
    let front: fn(&mut Window) = |w| {
        assert_eq!(w.set_base(56), Ok(()));
        assert!((56..62).all(|sequence| w.take_front() == Ok(Some(sequence))));
    };
    let range: fn(&mut Window) = |w| assert_eq!(w.remove_range(58, 69).answer, Ok(12)); // two demotions
    let mut memory = OwnedMemory::new(256);
    for single in [remove, front] {
        assert_eq!(at(&mut memory, MOST, 5, single), [0, 5, 5]);
        assert_eq!(at(&mut memory, MOST, MOST, single), [0, MOST, MOST]);
        assert_eq!(at(&mut memory, 5, MOST, single), [6, MOST, 5]);
    }
    assert_eq!(at(&mut memory, 5, MOST, range), [5, 1, 6]);
    assert_eq!(at(&mut memory, 5, MOST - 1, range), [5, 0, 5]);
    assert_eq!(at(&mut memory, MOST, MOST, range), [MOST, 1, 0]);
    assert_eq!(at(&mut memory, MOST, 5, range), [MOST, 7, 6]);
}

/// The parts of a window of 100 with three live values.
fn parts(memory: &mut OwnedMemory) -> (Header, Memory<'_>) {
    let mut w = window(memory, 100);
    for sequence in [5, 70, 71] {
        enter(&mut w, sequence, sequence);
    }
    w.into_parts()
}

#[test]
fn a_window_goes_on_from_its_parts() {
    let mut memory = OwnedMemory::new(100);
    let (header, memory) = parts(&mut memory);
    let mut w = Window::from_parts(header, memory).expect("a sound state");
    assert_eq!((w.check(), w.len(), w.remove(70)), (Ok(()), 3, Ok(Some(70))));
}

#[test]
fn parts_that_were_written_are_refused() {
    let damage: [fn(&mut Header, &mut Memory); 10] = [
        |header, _| header.len += 1,
        |header, _| header.retired_held = 1,
        |header, _| header.release_cursor = 2,
        |header, _| header.base = 5,
        |header, _| header.base = 2147483648,
        |header, _| header.point = 1,
        |_, memory| memory.sequences[0] += 1,
        |_, memory| memory.sequences[64] |= 1 << 31,
        |_, memory| memory.pages[0] = 3,
        |_, memory| memory.blocks[2] -= 1,
    ];
    for (number, damage) in damage.into_iter().enumerate() {
        let mut memory = OwnedMemory::new(100);
        let (mut header, mut memory) = parts(&mut memory);
        damage(&mut header, &mut memory);
        assert_eq!(Window::from_parts(header, memory).err(), Some(Refusal::Unsound), "damage {number}");
    }
}

#[test]
fn parts_that_do_not_fit_are_refused() {
    let mut memory = OwnedMemory::new(100);
    assert_eq!(Window::from_parts(Header::default(), memory.lend()).err(), Some(Refusal::ShortMemory));
    let (header, memory) = parts(&mut memory);
    let short = Memory { values: &mut memory.values[1..], ..memory };
    assert_eq!(Window::from_parts(header, short).err(), Some(Refusal::ShortMemory));
    let mut memory = OwnedMemory::new(100);
    let (header, memory) = parts(&mut memory);
    let short = Memory { returned: &mut memory.returned[1..], ..memory };
    assert_eq!(Window::from_parts(header, short).err(), Some(Refusal::ShortMemory));
}

#[test]
fn refusals_have_the_papers_numbers() {
    let refusals = [
        Refusal::WindowSize,
        Refusal::SparseCells,
        Refusal::DemoteAt,
        Refusal::Occupied,
        Refusal::RangeCount,
        Refusal::ShortMemory,
        Refusal::Unsound,
        Refusal::Budget,
        Refusal::Base,
        Refusal::Sequence,
        Refusal::ShortList,
        Refusal::LossList,
    ];
    assert_eq!(refusals.map(Refusal::number), [1, 2, 3, 4, 5, 6, 7, 8, 9, 10, 11, 12]);
}
