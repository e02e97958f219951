//! What a call must keep to, on any memory.

use crate::declared::*;
use crate::memory::{capacity, most_words, Memory, BLOCKS, LOST, NAMES, PAGES, RETURNED, WORDS};
use crate::operations::*;
use crate::reads::reads_due;
use crate::reports::{is_list, Due};

/// How many numbers an answer has, by its code; iter's reads, the fourth, are not counted.
const USED: [usize; 8] = [0, 0, 1, 0, 1, 3, 2, 1];

/// A call that was made, what it gave, and the memory after it.
pub struct Made<'a> {
    pub call: &'a Call,
    pub step: &'a NumberedStep,
    pub memory: &'a Memory,
    /// The state before the call was sound.
    pub sound: bool,
    /// What a loss report must give.
    pub due: &'a Due,
    /// The refusal that is known before the call.
    pub refusal: Option<u32>,
}

pub fn refused(answer: NumberedAnswer) -> Option<u32> {
    (answer.code == REFUSED).then_some(answer.first)
}

fn demand(holds: bool, what: impl FnOnce() -> String) -> Result<(), String> {
    if holds {
        Ok(())
    } else {
        Err(what())
    }
}

impl Made<'_> {
    fn answer(&self) -> NumberedAnswer {
        self.step.answer
    }

    /// The code is one that the call has, or a refusal that there is; numbers that the code does not use are 0.
    fn readable(&self) -> Result<(), String> {
        let answer @ NumberedAnswer { code, first, second, third, fourth } = self.answer();
        let own = self.call.operation.codes.contains(&code);
        demand(own || (code == REFUSED && (1..=REFUSALS).contains(&first)), || format!("answers {answer:?}"))?;
        let unused = &[first, second, third][USED[code as usize]..];
        demand(unused.iter().all(|&number| number == 0), || format!("answers {answer:?}, with numbers that are not used"))?;
        let due = self.reads();
        demand(fourth == due, || format!("answers {answer:?}, {due} reads are due"))
    }

    /// What an answer of iter must have as its fourth number, on any memory: the reads for the cell that it found. Any other has 0.
    fn reads(&self) -> u32 {
        let NumberedAnswer { code, third, .. } = self.answer();
        if self.call.operation.name != "iter" || code == REFUSED {
            return 0;
        }
        let found = (code == PAIR).then(|| third.wrapping_sub(1));
        reads_due(capacity(self.call.header.window_size) as u32, self.call.numbers[0], found)
    }

    /// The refusal that is known before the call, and no other that would be.
    fn decided(&self) -> Result<(), String> {
        let (wanted, given) = (self.refusal, refused(self.answer()));
        if wanted.is_some() {
            return demand(given == wanted, || format!("answers {:?}, not refusal {wanted:?}", self.answer()));
        }
        let allowed = match given {
            None => true,
            Some(OCCUPIED) => self.call.operation.codes.contains(&NEW),
            Some(UNSOUND) => !self.sound && !self.call.operation.is_new() && !self.call.operation.is_report(),
            Some(SHORT_LIST) => !self.sound && self.call.operation.writes_losses() && self.call.lengths[WORDS] < self.most_words(),
            Some(_) => false,
        };
        let state = if self.sound { "a sound state" } else { "arguments that are taken" };
        demand(allowed, || format!("refuses {given:?} on {state}"))?;
        let passed = self.call.operation.is_check() && given.is_none();
        demand(self.sound || !passed, || "says that the state is sound, which it is not".to_string())
    }

    fn most_words(&self) -> usize {
        most_words(self.call.range_count())
    }

    /// Whether header and lists of the window must be as they came.
    fn keeps_window(&self) -> bool {
        let occupied = self.sound && refused(self.answer()) == Some(OCCUPIED);
        self.refusal.is_some() || self.call.operation.keeps_window() || occupied
    }

    fn header(&self) -> Result<(), String> {
        let (before, after) = (self.call.header, self.step.window);
        let kept = if self.call.operation.is_new() {
            let [window_size, n, demote_at] = self.call.numbers;
            let fresh = Header { window_size, n, demote_at, ..Header::default() };
            after == if self.refusal.is_some() { Header::default() } else { fresh }
        } else if self.keeps_window() {
            after == before
        } else {
            let fixed = |header: Header| (header.window_size, header.n, header.demote_at);
            !self.sound || (fixed(after) == fixed(before) && self.base())
        };
        demand(kept, || format!("header {after:?}"))
    }

    /// On a sound state: set_base changes the base and the point alone, taking a value from the front moves the base by one, and every
    /// other call leaves it.
    fn base(&self) -> bool {
        let (before, after) = (self.call.header, self.step.window);
        match self.call.operation.name {
            "set_base" => after == Header { base: self.call.numbers[0], point: after.point, ..before },
            "take_front" if self.answer().code == FOUND => after.base == after_base(before.base, 1),
            _ => after.base == before.base,
        }
    }

    /// On any memory: a demotion is counted under its own cause, and every other call leaves both counts, as a refused one does; but
    /// refusal 7 may come after a demotion. The header of new is judged whole.
    fn demotions(&self) -> Result<(), String> {
        if self.call.operation.is_new() {
            return Ok(());
        }
        let counted = demotions_counted(self.call.header, self.step.window);
        let most = match refused(self.answer()) {
            None | Some(UNSOUND) => self.call.operation.most_demotions(),
            Some(_) => [0, 0],
        };
        let holds = counted.iter().zip(most).all(|(&counted, most)| counted <= most);
        demand(holds, || format!("counts {counted:?} demotions, single and of ranges, at most {most:?} expected"))
    }

    /// On a sound state: each page that became sparse is counted. A range that goes round into its first page may empty it after that, so
    /// that it counts one more.
    fn demoted(&self) -> Result<(), String> {
        let [single, range] = demotions_counted(self.call.header, self.step.window);
        let most @ [most_single, most_range] = self.call.operation.most_demotions();
        if most == [0, 0] {
            return Ok(());
        }
        let named = self.call.named()[PAGES];
        let (before, after) = (self.memory.lists[PAGES].words_before(), self.memory.lists[PAGES].now::<u64>(self.call.lengths[PAGES]));
        let became_sparse = |page: usize| before[page] == 2 && after[page] == 1;
        let pages = (0..named).step_by(3).filter(|&page| became_sparse(page)).count() as u64;
        let holds = (most_single == 0 || single == pages) && (most_range == 0 || (pages..=pages + 1).contains(&range));
        demand(holds, || format!("counts {:?} demotions, {pages} pages became sparse", [single, range]))
    }

    fn count(&self) -> Result<(), String> {
        let NumberedStep { count, .. } = *self.step;
        let most = match refused(self.answer()) {
            None | Some(UNSOUND) if self.call.operation.with_list() => self.call.lengths[RETURNED],
            _ => 0,
        };
        demand(count as usize <= most, || format!("count {count}, at most {most} expected"))
    }

    /// The first elements of a list that the call may have written.
    fn free(&self, list: usize) -> usize {
        if !self.call.operation.writes.contains(&list) {
            return 0;
        }
        match list {
            WORDS | LOST => self.reported(),
            _ if self.keeps_window() => 0,
            RETURNED => self.step.count as usize,
            _ => self.call.named()[list],
        }
    }

    /// The words or bytes that a loss report has written.
    fn reported(&self) -> usize {
        match self.answer() {
            answer if refused(answer).is_some() => 0,
            answer if self.call.operation.writes_losses() => (answer.first as usize).min(self.call.lengths[WORDS]),
            _ => self.call.range_count() as usize,
        }
    }

    fn lists(&self) -> Result<(), String> {
        for (list, name) in NAMES.iter().enumerate().filter(|&(list, _)| self.call.operation.takes(list)) {
            let free = self.free(list);
            let unaltered = self.memory.lists[list].unaltered_past(self.call.lengths[list], free);
            demand(unaltered, || format!("{name} changed outside its first {free}"))?;
        }
        Ok(())
    }

    /// A loss report that was taken gives what is due; where that is not known, a list of some losses of its range.
    fn report(&self) -> Result<(), String> {
        if refused(self.answer()).is_some() || !self.call.operation.is_report() {
            return Ok(());
        }
        let number = self.answer().first as usize;
        let words = || &self.memory.lists[WORDS].now::<u32>(self.call.lengths[WORDS])[..self.reported()];
        let right = match self.due {
            Due::Words(due) => number == due.len() && words() == due,
            Due::Lost(Some(due)) => {
                let lost = &self.memory.lists[LOST].now::<u8>(self.call.lengths[LOST])[..due.len()];
                number == due.iter().filter(|&&byte| byte == 1).count() && lost == due
            }
            _ => number <= self.most_words() && number == words().len() && is_list(self.call, words()),
        };
        demand(right, || format!("reports other losses, {number} in its answer"))
    }

    /// An accepted new has emptied the page and block words.
    fn emptied(&self) -> Result<(), String> {
        if !self.call.operation.is_new() || self.refusal.is_some() {
            return Ok(());
        }
        let named = self.call.named();
        let empty = |list: usize| self.memory.lists[list].now::<u64>(self.call.lengths[list])[..named[list]].iter().all(|&word| word == 0);
        demand(empty(PAGES) && empty(BLOCKS), || "words are left that are not 0".to_string())
    }

    /// On a sound state: values held before and entered are those held after and handed back.
    fn conserved(&self) -> Result<(), String> {
        let held = |header: Header| u64::from(header.len) + u64::from(header.retired_held);
        let entered = u64::from(self.answer().code == NEW);
        let removes = matches!(self.call.operation.call(), "remove" | "take_front");
        let removed = u64::from(removes && self.answer().code == FOUND);
        let before = held(self.call.header) + entered;
        let after = held(self.step.window) + removed + u64::from(self.step.count);
        demand(before == after, || format!("{before} values held and entered, {after} held and handed back"))
    }

    /// On a sound state: numbers that repeat what the call did.
    fn numbers(&self) -> Result<(), String> {
        let NumberedAnswer { first, second, .. } = self.answer();
        let NumberedStep { count, window, .. } = *self.step;
        let given = self.call.numbers[0];
        let holds = match self.call.operation.call() {
            "release_retired" => first == count && first <= second && second <= given,
            "clear_bounded" => first == count && first <= given && window.len == 0,
            "clear" => window.len == 0,
            "remove_range" => self.call.header.len - window.len == first,
            _ => true,
        };
        demand(holds, || format!("answers {:?}, count {count}, header {window:?}", self.answer()))
    }

    pub fn judge(&self) -> Result<(), String> {
        self.readable()?;
        self.decided()?;
        self.header()?;
        self.demotions()?;
        self.count()?;
        self.lists()?;
        self.emptied()?;
        self.report()?;
        if self.sound && self.refusal.is_none() && refused(self.answer()).is_none() && !self.call.operation.is_new() {
            self.conserved()?;
            self.numbers()?;
            self.demoted()?;
        }
        Ok(())
    }
}
