//! Stack use of the exported calls, by a painted stack.

use crate::calls::{Generator, Item, Options, Random};
use crate::declared::*;
use crate::line::Call;
use std::collections::BTreeMap;
use std::mem::{size_of, transmute, MaybeUninit};

const CALLS: u32 = 4000;
const PAINT: u64 = 0x9e37_79b9_7f4a_7c15;
/// Words of the painted stack.
const WORDS: usize = 8192;
/// Of which the topmost hold the arguments.
const ARGUMENTS: usize = 32;
const REGISTERS: usize = 6;
const RETURNED: usize = 384;
/// Places of the lists of a loss report.
const LONGEST: usize = 65536;

// target, six arguments in registers, the stack with the other arguments: the call made on that stack.
std::arch::global_asm!(
    ".globl call_on_stack",
    "call_on_stack:",
    "push rbp",
    "mov rbp, rsp",
    "mov rsp, rdx",
    "mov rax, rdi",
    "mov r10, rsi",
    "mov rdi, [r10]",
    "mov rsi, [r10 + 8]",
    "mov rdx, [r10 + 16]",
    "mov rcx, [r10 + 24]",
    "mov r8, [r10 + 32]",
    "mov r9, [r10 + 40]",
    "call rax",
    "mov rsp, rbp",
    "pop rbp",
    "ret",
);

extern "C" {
    fn call_on_stack(target: *const (), registers: *const u64, arguments: *mut u64);
}

#[repr(C, align(16))]
struct Painted([u64; WORDS]);

/// The painted stack, and the most bytes that each call used of it.
struct Stack {
    words: Box<Painted>,
    most: BTreeMap<&'static str, usize>,
}

impl Stack {
    fn new() -> Self {
        Self { words: Box::new(Painted([PAINT; WORDS])), most: BTreeMap::new() }
    }

    /// The call by C's calling convention on x86-64: the header's words lie on the stack, then the arguments that have no
    /// register. How deep the paint is gone is kept.
    fn call(&mut self, name: &'static str, target: *const (), header: &[u64], arguments: &[u64]) {
        let (registers, rest) = arguments.split_at(REGISTERS);
        let words = &mut self.words.0;
        let top = WORDS - ARGUMENTS;
        words[..top].fill(PAINT);
        let on_stack = header.iter().chain(rest);
        words[top..].iter_mut().zip(on_stack).for_each(|(word, &argument)| *word = argument);
        unsafe { call_on_stack(target, registers.as_ptr(), words[top..].as_mut_ptr()) };
        let deepest = words.iter().position(|&word| word != PAINT).expect("the return address is on the stack");
        assert!(deepest > 0, "{name} used more than {} bytes", 8 * top);
        let most = self.most.entry(name).or_default();
        *most = (*most).max(8 * (top - deepest));
    }
}

/// A window over the library, each call of which is made on the painted stack.
struct Window {
    header: Header,
    sequences: Vec<u32>,
    values: Vec<u32>,
    pages: Vec<u64>,
    blocks: Vec<u64>,
    returned: Vec<u32>,
}

/// `call!(stack, header words, NAME, [arguments])`: what the call writes to the place of its result.
macro_rules! call {
    ($stack:expr, $header:expr, $name:ident, $arguments:expr, $result:ty) => {{
        let mut result = MaybeUninit::<$result>::zeroed();
        let mut arguments = vec![result.as_mut_ptr() as u64];
        arguments.extend($arguments);
        $stack.call(stringify!($name), $name as *const (), $header, &arguments);
        unsafe { result.assume_init() }
    }};
}

impl Window {
    fn new(stack: &mut Stack, window_size: u32, n: u32, demote_at: u32) -> Option<Self> {
        let capacity = (window_size as usize).clamp(64, 65536).next_power_of_two();
        let pages = capacity / 64;
        let mut w = Self {
            header: Header::default(),
            sequences: vec![u32::MAX; capacity],
            values: vec![u32::MAX; capacity],
            pages: vec![u64::MAX; 3 * pages],
            blocks: vec![u64::MAX; 3 * pages.div_ceil(64)],
            returned: vec![u32::MAX; RETURNED],
        };
        let mut arguments = w.lists();
        arguments.extend([window_size, n, demote_at].map(u64::from));
        let step = call!(stack, &[], packet_window_new, arguments, NumberedStep);
        w.header = step.window;
        (step.answer.code == DONE).then_some(w)
    }

    /// The four lists as arguments.
    fn lists(&mut self) -> Vec<u64> {
        let numbers = [&mut self.sequences, &mut self.values].map(|list| [list.as_mut_ptr() as u64, list.len() as u64]);
        let words = [&mut self.pages, &mut self.blocks].map(|list| [list.as_mut_ptr() as u64, list.len() as u64]);
        [numbers, words].concat().concat()
    }

    fn return_list(&mut self) -> [u64; 2] {
        [self.returned.as_mut_ptr() as u64, RETURNED as u64]
    }

    /// The call by value, and by its host form where it has one.
    fn call(&mut self, stack: &mut Stack, call: Call, host: bool) {
        let header: [u64; size_of::<Header>() / 8] = unsafe { transmute(self.header) };
        let (lists, list) = (self.lists(), self.return_list());
        let place = &mut self.header as *mut Header as u64;
        let words = |numbers: &[u32]| numbers.iter().map(|&number| u64::from(number)).collect::<Vec<_>>();
        let read = |numbers: &[u32]| [&lists[..], &words(numbers)].concat();
        let dropping = |numbers: &[u32]| [&lists[..], &list, &words(numbers)].concat();
        let lent = |arguments: Vec<u64>| [vec![place], arguments].concat();
        macro_rules! step {
            ($name:ident, $arguments:expr) => {
                self.header = call!(stack, &header, $name, $arguments, NumberedStep).window
            };
        }
        macro_rules! host {
            ($name:ident, $arguments:expr) => {{
                call!(stack, &[], $name, lent($arguments), NumberedOutcome);
            }};
        }
        match call {
            Call::New { .. } => unreachable!("new makes a window, it is no call on one"),
            Call::Insert { sequence, value } if host => host!(packet_window_host_insert, dropping(&[sequence, value])),
            Call::Remove(sequence) if host => host!(packet_window_host_remove, read(&[sequence])),
            Call::ReleaseRetired(budget) if host => host!(packet_window_host_release_retired, dropping(&[budget])),
            Call::Insert { sequence, value } => step!(packet_window_insert, dropping(&[sequence, value])),
            Call::Remove(sequence) => step!(packet_window_remove, read(&[sequence])),
            Call::ReleaseRetired(budget) => step!(packet_window_release_retired, dropping(&[budget])),
            Call::Get(sequence) => step!(packet_window_get, read(&[sequence])),
            Call::SuccessorAfter(sequence) => step!(packet_window_successor_after, read(&[sequence])),
            Call::FirstFrom(sequence) => step!(packet_window_first_from, read(&[sequence])),
            Call::Exchange { sequence, value } => step!(packet_window_exchange, read(&[sequence, value])),
            Call::SetBase(base) => step!(packet_window_set_base, read(&[base])),
            Call::TakeFront => step!(packet_window_take_front, read(&[])),
            Call::Iter => {
                let mut cell = 0;
                loop {
                    let step = call!(stack, &header, packet_window_iter, read(&[cell]), NumberedStep);
                    if step.answer.code != PAIR {
                        break;
                    }
                    cell = step.answer.third;
                }
            }
            Call::Stranger { first, last } => step!(packet_window_stranger, read(&[first, last])),
            Call::RemoveRange { first, last } => step!(packet_window_remove_range, dropping(&[first, last])),
            Call::Clear => step!(packet_window_clear, dropping(&[])),
            Call::ClearBounded(number) => step!(packet_window_clear_bounded, dropping(&[number])),
        }
    }

    /// The losses of a range written, and the list read.
    fn report(&mut self, stack: &mut Stack, (first, last): (u32, u32)) {
        let header: [u64; size_of::<Header>() / 8] = unsafe { transmute(self.header) };
        let (mut words, mut lost) = (vec![0u32; LONGEST], vec![0u8; LONGEST]);
        let (list, ends) = (words.as_mut_ptr() as u64, [u64::from(first), u64::from(last)]);
        let arguments = [&self.lists()[..], &[list, LONGEST as u64], &ends].concat();
        let written = call!(stack, &header, packet_window_write_losses, arguments, NumberedStep).answer.first;
        let arguments = [&self.lists()[..], &[list, u64::from(written), lost.as_mut_ptr() as u64, LONGEST as u64], &ends].concat();
        call!(stack, &header, packet_window_read_losses, arguments, NumberedStep);
    }

    /// The call check, which must find the state sound.
    fn check(&mut self, stack: &mut Stack) {
        let header: [u64; size_of::<Header>() / 8] = unsafe { transmute(self.header) };
        let step = call!(stack, &header, packet_window_check, self.lists(), NumberedStep);
        assert_eq!(step.answer.code, DONE, "not sound: {:?}", self.header);
    }
}

/// One generated list of calls.
fn list(stack: &mut Stack, seed: u64, options: Options) -> u32 {
    let mut generator = Generator::new(seed, CALLS, options);
    let mut random = Random::new(!seed);
    let (mut window, mut made) = (None::<Window>, 0);
    for _ in 0..CALLS {
        let Item::Call(call) = generator.next() else {
            continue;
        };
        if let Call::New { window_size, n, demote_at } = call {
            window = Window::new(stack, window_size, n, demote_at).or(window);
        } else if let Some(w) = &mut window {
            w.call(stack, call, random.percent(50));
            if random.percent(2) {
                w.check(stack);
                w.report(stack, generator.report());
            }
        }
        made += 1;
    }
    made
}

pub fn print() {
    let mut stack = Stack::new();
    let mut made = 1;
    stack.call("packet_window_version", packet_window_version as *const (), &[], &[0; REGISTERS]);
    for seed in 1..=20 {
        for (large, small) in [(false, true), (false, false), (true, false)] {
            made += list(&mut stack, 9000 + seed, Options { large, small, clean: true });
        }
    }
    for (name, bytes) in &stack.most {
        println!("{name}\t{bytes}");
    }
    println!("calls\t{made}");
}
