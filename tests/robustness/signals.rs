//! A fault or a call that does not end: the program says which seed and call it was, and stops.

use crate::memory::{Memory, NAMES};
use crate::operations::Call;
use crate::sigaction::{sigaction, Action, Handler, Information, WITH_INFORMATION};
use std::ffi::{c_int, c_void};
use std::fmt::{self, Write};
use std::ptr::{addr_of, addr_of_mut};
use std::sync::atomic::{AtomicBool, AtomicU64, Ordering::Relaxed};

#[repr(C)]
struct Stack {
    start: *mut u8,
    flags: c_int,
    bytes: usize,
}

#[repr(C)]
struct Timer {
    seconds: [i64; 4],
}

extern "C" {
    fn sigaltstack(stack: *const Stack, old: *mut Stack) -> c_int;
    fn setitimer(which: c_int, timer: *const Timer, old: *mut Timer) -> c_int;
    fn write(file: c_int, from: *const u8, bytes: usize) -> isize;
    fn _exit(status: c_int) -> !;
}

/// SIGILL, SIGTRAP, SIGABRT, SIGBUS, SIGFPE, SIGSEGV
const FAULTS: [c_int; 6] = [4, 5, 6, 7, 8, 11];
/// SIGVTALRM: a count of this process's own time, so that a busy machine raises no alarm.
const ALARM: c_int = 26;
const VIRTUAL: c_int = 1;
/// Seconds of its own time after which a call counts as endless: at least these, at most twice as many.
const LIMIT: i64 = 2;
const ON_STACK: c_int = 0x0800_0000;
const STACK_BYTES: usize = 64 << 10;

/// The call under way.
#[derive(Clone, Copy)]
struct Current {
    seed: u64,
    number: u64,
    call: Call,
    memory: *const Memory,
}

static mut CURRENT: Option<Current> = None;
static mut PROGRAM: &str = "";
static IN_CALL: AtomicBool = AtomicBool::new(false);
static CALLS: AtomicU64 = AtomicU64::new(0);
static LAST_SEEN: AtomicU64 = AtomicU64::new(u64::MAX);

/// Text in a fixed place: a handler must not allocate.
struct Text {
    bytes: [u8; 2048],
    length: usize,
}

impl Write for Text {
    fn write_str(&mut self, text: &str) -> fmt::Result {
        let room = &mut self.bytes[self.length..];
        let length = text.len().min(room.len());
        room[..length].copy_from_slice(&text.as_bytes()[..length]);
        self.length += length;
        Ok(())
    }
}

/// The call as it is named in a report.
pub struct Named<'a>(pub &'a Call);

impl fmt::Display for Named<'_> {
    fn fmt(&self, f: &mut fmt::Formatter) -> fmt::Result {
        let Call { operation, header, lengths, numbers } = self.0;
        write!(f, "{} {numbers:?}, {header:?}, lengths {lengths:?}", operation.name)
    }
}

/// How to run a seed again.
pub struct Again(u64);

pub fn again(seed: u64) -> Again {
    Again(seed)
}

impl fmt::Display for Again {
    fn fmt(&self, f: &mut fmt::Formatter) -> fmt::Result {
        let program = unsafe { addr_of!(PROGRAM).read() };
        write!(f, "again: target/robustness/{program} {0} {0}", self.0)
    }
}

fn report(what: &str, address: Option<usize>) -> ! {
    let mut text = Text { bytes: [0; 2048], length: 0 };
    let _ = match unsafe { addr_of!(CURRENT).read() } {
        Some(Current { seed, number, call, memory }) if IN_CALL.load(Relaxed) => {
            let _ = writeln!(text, "seed {seed}, call {number}: {what} in {}", Named(&call));
            if let Some(address) = address {
                for (list, name) in unsafe { &(*memory).lists }.iter().zip(NAMES) {
                    if let Some(offset) = list.place_of(address) {
                        let _ = writeln!(text, "the address is byte {offset} of {name}");
                    }
                }
            }
            writeln!(text, "{}", again(seed))
        }
        _ => writeln!(text, "{what} outside of a call"),
    };
    unsafe {
        write(1, text.bytes.as_ptr(), text.length);
        _exit(3)
    }
}

extern "C" fn faulted(signal: c_int, information: *const Information, _: *mut c_void) {
    let what = match signal {
        7 | 11 => "access outside of the lent memory",
        _ => "trap",
    };
    report(what, Some(unsafe { (*information).address }));
}

extern "C" fn alarmed(_: c_int, _: *const Information, _: *mut c_void) {
    let calls = CALLS.load(Relaxed);
    if LAST_SEEN.swap(calls, Relaxed) == calls && IN_CALL.load(Relaxed) {
        report("no end", None);
    }
}

fn install(signal: c_int, handler: Handler) {
    let flags = ON_STACK | WITH_INFORMATION;
    let action = Action { handler, mask: [0; 16], flags, restorer: 0 };
    assert_eq!(unsafe { sigaction(signal, &action, std::ptr::null_mut()) }, 0);
}

/// Handlers of faults on a stack of their own, and the watchdog, for a program of that name.
pub fn watch(program: &'static str) {
    unsafe { addr_of_mut!(PROGRAM).write(program) };
    let start = Box::leak(vec![0; STACK_BYTES].into_boxed_slice()).as_mut_ptr();
    let stack = Stack { start, flags: 0, bytes: STACK_BYTES };
    let timer = Timer { seconds: [LIMIT, 0, LIMIT, 0] };
    FAULTS.iter().for_each(|&signal| install(signal, faulted));
    install(ALARM, alarmed);
    unsafe {
        assert_eq!(sigaltstack(&stack, std::ptr::null_mut()), 0);
        assert_eq!(setitimer(VIRTUAL, &timer, std::ptr::null_mut()), 0);
    }
}

/// `run` under the watch, as call `number` of `seed`.
pub fn watched<T>(seed: u64, number: u64, call: &Call, memory: &Memory, run: impl FnOnce() -> T) -> T {
    unsafe { addr_of_mut!(CURRENT).write(Some(Current { seed, number, call: *call, memory })) };
    CALLS.fetch_add(1, Relaxed);
    IN_CALL.store(true, Relaxed);
    let given = run();
    IN_CALL.store(false, Relaxed);
    given
}
