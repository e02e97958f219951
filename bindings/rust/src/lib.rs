//! Safe interface of the adaptive receiver packet window, a static library that is proved to meet its contracts.
//!
//! A [`Window`] holds packets by sequence number; a value is a number of the caller's choice, such as that of a packet store. It works
//! in lists that the caller lends ([`Memory`]) and gives each accepted value back exactly once: as an old value from
//! [`Window::insert`] and [`Window::exchange`], as the value from [`Window::remove`] and [`Window::take_front`], or among the `returned`
//! values of an [`Outcome`].
//!
//! ```
//! use packet_window::{Inserted, OwnedMemory, Window};
//!
//! let mut memory = OwnedMemory::new(512);
//! let mut window = Window::new(memory.lend(), 512, 8, 4)?;
//! assert_eq!(window.insert(7, 70).answer, Ok(Inserted::New));
//! assert_eq!(window.get(7), Ok(Some(70)));
//! let outcome = window.remove_range(0, 63);
//! assert_eq!(outcome.answer, Ok(1));
//! for store in outcome.returned {
//!     assert_eq!(*store, 70); // the store is free again
//! }
//! # Ok::<(), packet_window::Refusal>(())
//! ```
//!
//! # Sequences
//!
//! A sequence number has 31 bits, as on the wire: 0 to 2147483647, and 2147483647 is followed by 0. Every call that takes a sequence, a
//! first or a last answers [`Refusal::Sequence`] for a number with the top bit set, and nothing is altered; [`Window::set_base`] answers
//! [`Refusal::Base`]. What the first word of a data packet holds may be handed over as it came, in host order.
//!
//! ```
//! use packet_window::{OwnedMemory, Refusal, Window};
//!
//! let mut memory = OwnedMemory::new(512);
//! let mut window = Window::new(memory.lend(), 512, 8, 4)?;
//! assert_eq!(window.insert(0x8000_0007, 70).answer, Err(Refusal::Sequence)); // store 70 stays with the caller
//! assert!(window.insert(0x7fff_ffff, 71).answer.is_ok());
//! # Ok::<(), packet_window::Refusal>(())
//! ```
//!
//! # Loss reports
//!
//! [`Window::write_losses`] tells which sequences of a range are not live, as the loss report (NAK) of SRT does: a run of three or more in
//! a row is two words, its first sequence with the top bit set and its last; a shorter run is single words. Words are in host order.
//! [`Window::read_losses`] takes such a list apart, and no other.
//!
//! ```
//! use packet_window::{loss_words, OwnedMemory, Window};
//!
//! let mut memory = OwnedMemory::new(512);
//! let mut window = Window::new(memory.lend(), 512, 8, 4)?;
//! assert!(window.insert(104, 70).answer.is_ok());
//! let mut places = [0; loss_words(512)];
//! let report = window.write_losses(101, 106, &mut places)?;
//! assert_eq!(report, [0x8000_0065, 103, 105, 106]); // 101 to 103, 105 and 106
//! let mut lost = [0; 6];
//! assert_eq!(window.read_losses(101, 106, report, &mut lost), Ok(5));
//! assert_eq!(lost, [1, 1, 1, 0, 1, 1]);
//! # Ok::<(), packet_window::Refusal>(())
//! ```
//!
//! # Memory
//!
//! With fixed memory, and no allocator (without the feature `alloc` the crate needs none):
//!
//! ```
//! use packet_window::{block_words, capacity, page_words, Memory, Window, RETURN_PLACES};
//!
//! const SIZE: u32 = 1000;
//! let mut sequences = [0; capacity(SIZE)];
//! let mut values = [0; capacity(SIZE)];
//! let mut pages = [0; page_words(SIZE)];
//! let mut blocks = [0; block_words(SIZE)];
//! let mut returned = [0; RETURN_PLACES];
//! let memory = Memory {
//!     sequences: &mut sequences,
//!     values: &mut values,
//!     pages: &mut pages,
//!     blocks: &mut blocks,
//!     returned: &mut returned,
//! };
//! let window = Window::new(memory, SIZE, 8, 4)?;
//! assert!(window.is_empty());
//! # Ok::<(), packet_window::Refusal>(())
//! ```
//!
//! # Linking
//!
//! The build script links `libpacket_window.a`, which `./library` makes, from the folder that PACKET_WINDOW_LIBRARY names, else from
//! target of the repository. It must be of the version that this wrapper is written for ([`VERSION`]), which [`Window::new`] and
//! [`Window::from_parts`] see to. Without cargo:
//!
//! ```text
//! rustc --edition 2021 --crate-type rlib --crate-name packet_window -L native=target -l static=packet_window bindings/rust/src/lib.rs
//! ```

#![no_std]
#![deny(missing_docs)]

#[cfg(feature = "alloc")]
extern crate alloc;

mod answers;
mod memory;
mod raw;
mod window;

pub use answers::{Inserted, NextPair, Outcome, Refusal, Released, Step};
#[cfg(feature = "alloc")]
pub use memory::OwnedMemory;
pub use memory::{
    block_words, capacity, loss_words, page_words, Memory, MAX_RETIRED_RELEASED_PER_VISIT, PAGE_SLOTS, RETURN_PLACES, VERSION,
};
pub use raw::Header;
pub use window::{library_version, Iter, Window};
