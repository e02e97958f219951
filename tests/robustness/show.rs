//! One show: packets sent, lost, late, out of order and duplicated; played, taken from the front, skipped and dropped by ranges; the
//! window cleared at the end.

use crate::calls::Random;
use crate::head::Head;
use std::cmp::Reverse;
use std::collections::BinaryHeap;

/// Counts of one struct's fields: their names, and sums.
#[macro_export]
macro_rules! counted {
    ($(#[$about:meta])* $name:ident { $($field:ident: $what:literal),* $(,)? }) => {
        $(#[$about])*
        #[derive(Debug, Default, Clone, Copy)]
        pub struct $name {
            $(pub $field: u64),*
        }

        impl $name {
            pub fn add(&mut self, other: &Self) {
                $(self.$field += other.$field;)*
            }

            pub fn rows(&self) -> Vec<(&'static str, u64)> {
                vec![$(($what, self.$field)),*]
            }
        }
    };
}

counted! {
    /// What the shows were made of.
    Traffic {
        sent: "packets sent",
        lost: "packets lost on the way",
        again: "packets sent again after a loss",
        out_of_order: "packets out of order",
        duplicated: "packets duplicated",
        late: "packets that came after their time",
        late_entered: "of these, entered all the same",
        starved: "packets dropped because no store was free",
        absent: "packets absent when they were to be played",
        wraps_31: "sequence numbers wrapped at 31 bits",
        wide: "packets whose number had its top bit set",
        jumps: "jumps within a show",
    }
}

const LAST: u32 = u32::MAX >> 1;
const TOP_BIT: u32 = 1 << 31;

/// The sequence so many later, or earlier: they have 31 bits.
fn add(sequence: u32, number: u32) -> u32 {
    sequence.wrapping_add(number) & LAST
}

fn less(sequence: u32, number: u32) -> u32 {
    sequence.wrapping_sub(number) & LAST
}

/// How far `later` is from `sequence`.
fn distance(sequence: u32, later: u32) -> u32 {
    less(later, sequence)
}

pub struct Show {
    pub traffic: Traffic,
    window_size: u32,
    packets: u64,
    /// Packets between sending and playing.
    delay: u32,
    /// In a thousand.
    loss: u32,
    disorder: u32,
    duplicates: u32,
    wide: u32,
    /// How many packets are dropped by one range, where packets are not removed one by one; 0 if they are.
    batch: u32,
    /// The window's base is the packet to be played, which is taken from the front.
    front: bool,
    /// Packets between release visits, and their budget.
    visit_every: u64,
    budget: u32,
    next: u32,
    play: u32,
    outage: u32,
    time: u64,
    /// Packets on the way, by the time of their arrival.
    on_the_way: BinaryHeap<Reverse<(u64, u32)>>,
}

fn in_a_thousand(random: &mut Random, chance: u32) -> bool {
    random.below(1000) < chance
}

impl Show {
    pub fn new(random: &mut Random, window_size: u32) -> Self {
        let first = LAST - random.below(20_000);
        let delay = 1 + random.below(window_size - window_size / 8);
        let batch = random.pick(&[0, 0, 1, 50, 64, 300, window_size]).min(window_size);
        let front = batch == 0 && random.percent(70);
        Self {
            traffic: Traffic::default(),
            window_size,
            packets: u64::from(window_size) * 4 + u64::from(20_000 + random.below(10_000)),
            delay,
            loss: random.pick(&[0, 5, 50, 200]),
            disorder: random.pick(&[0, 20, 300]),
            duplicates: random.pick(&[0, 10, 100]),
            wide: random.pick(&[0, 1, 20]),
            batch,
            front,
            visit_every: random.pick(&[1, 7, 100, 5000]),
            budget: random.pick(&[1, 2, 16, 64, 255, 256]),
            next: first,
            play: first,
            outage: 0,
            time: 0,
            on_the_way: BinaryHeap::new(),
        }
    }

    fn arrives(&mut self, random: &mut Random, sequence: u32, within: u32) {
        let time = self.time + u64::from(random.below(within + 1));
        self.on_the_way.push(Reverse((time, sequence)));
    }

    fn lose(&mut self, random: &mut Random, sequence: u32) {
        self.traffic.lost += 1;
        if random.percent(70) {
            self.traffic.again += 1;
            self.arrives(random, sequence, 2 * self.delay);
        }
    }

    /// The next packet on its way; in an outage none arrives, and nothing is sent again.
    fn send(&mut self, random: &mut Random) {
        let sequence = self.next;
        self.next = add(sequence, 1);
        self.traffic.sent += 1;
        if self.next == 0 {
            self.traffic.wraps_31 += 1;
        }
        if self.outage > 0 {
            self.outage -= 1;
            self.traffic.lost += 1;
        } else if in_a_thousand(random, self.loss) {
            self.lose(random, sequence);
        } else if in_a_thousand(random, self.disorder) {
            self.traffic.out_of_order += 1;
            self.arrives(random, sequence, self.delay.min(40));
        } else {
            self.arrives(random, sequence, 0);
        }
        if in_a_thousand(random, self.duplicates) {
            self.traffic.duplicated += 1;
            self.arrives(random, sequence, self.delay);
        }
        if random.below(20_000 + 8 * self.window_size) == 0 {
            self.outage = random.below(2 * self.window_size);
        }
    }

    /// A free store; if there is none, after some release visits.
    fn store(&mut self, random: &mut Random, head: &mut Head) -> Result<Option<u32>, String> {
        for _ in 0..2 {
            if let Some(store) = head.ledger.take(random) {
                return Ok(Some(store));
            }
            if head.ledger.retired() > 0 {
                head.release(256)?;
            }
        }
        self.traffic.starved += 1;
        Ok(None)
    }

    fn is_late(&self, sequence: u32) -> bool {
        distance(self.play, sequence) > LAST / 2
    }

    /// The packet as a faulty switch shows it: a call is made with its number's top bit set.
    fn receive_wide(&mut self, random: &mut Random, head: &mut Head, sequence: u32) -> Result<(), String> {
        let (wide, later) = (sequence | TOP_BIT, add(sequence, random.below(self.window_size)));
        let (name, numbers) = match random.below(16) {
            0 => ("get", [wide, 0, 0]),
            1 => ("exchange", [wide, random.any(), 0]),
            2 => ("remove", [wide, 0, 0]),
            3 => ("first_from", [wide, 0, 0]),
            4 => ("successor_after", [wide, 0, 0]),
            5 => ("remove_range", [wide, later, 0]),
            6 => ("remove_range", [sequence, later | TOP_BIT, 0]),
            7 => ("stranger", [wide, later, 0]),
            8 => ("stranger", [sequence, later | TOP_BIT, 0]),
            9 => ("write_losses", [wide, later, 0]),
            10 => ("write_losses", [sequence, later | TOP_BIT, 0]),
            11 => ("read_losses", [wide, later, 0]),
            12 => ("read_losses", [sequence, later | TOP_BIT, 0]),
            _ => ("insert", [wide, random.any(), 0]),
        };
        self.traffic.wide += 1;
        head.refuses_wide(name, numbers)
    }

    fn receive(&mut self, random: &mut Random, head: &mut Head, sequence: u32) -> Result<(), String> {
        if in_a_thousand(random, self.wide) {
            self.receive_wide(random, head, sequence)?;
        }
        if self.is_late(sequence) {
            self.traffic.late += 1;
            if random.percent(80) {
                return Ok(());
            }
            self.traffic.late_entered += 1;
        }
        match self.store(random, head)? {
            Some(store) => head.insert(sequence, store),
            None => Ok(()),
        }
    }

    /// The window's base where the show is.
    fn follow(&self, head: &mut Head) -> Result<(), String> {
        if self.front {
            head.set_base(self.play)
        } else {
            Ok(())
        }
    }

    /// The packet whose time has come: read, and removed or taken unless ranges are dropped.
    fn play_one(&mut self, random: &mut Random, head: &mut Head) -> Result<(), String> {
        let sequence = self.play;
        self.play = add(sequence, 1);
        head.get(sequence)?;
        if random.below(50) == 0 {
            if let Some(store) = head.ledger.take(random) {
                head.exchange(sequence, store)?;
            }
        }
        if self.front {
            let there = head.take_front()?;
            self.traffic.absent += u64::from(!there);
            return if there { Ok(()) } else { self.follow(head) };
        }
        if self.batch == 0 {
            let there = head.remove(sequence)?;
            self.traffic.absent += u64::from(!there);
        } else if self.traffic.sent % u64::from(self.batch) == 0 {
            head.remove_range(less(sequence, self.batch - 1), sequence)?;
        }
        Ok(())
    }

    /// The next live packet is looked for, and what stands before it dropped.
    fn skip(&mut self, random: &mut Random, head: &mut Head) -> Result<(), String> {
        let from = if random.percent(50) { head.first_from(self.play)? } else { head.successor_after(self.play)? };
        let Some(found) = from else {
            return Ok(());
        };
        let ahead = distance(self.play, found);
        if 0 < ahead && ahead <= self.window_size {
            head.remove_range(self.play, add(self.play, ahead - 1))?;
            self.play = found;
        }
        self.follow(head)
    }

    /// What happens now and then.
    fn seldom(&mut self, random: &mut Random, head: &mut Head) -> Result<(), String> {
        let last = add(self.play, random.below(self.window_size + 2));
        match random.below(24) {
            0..=3 => self.skip(random, head),
            4..=7 => head.stranger(self.play, last),
            8..=11 => head.remove_range(self.play, last),
            12 => head.list(),
            13..=14 => head.release_all(random),
            15 => head.check(),
            16 => self.jump(random, head),
            17..=18 if !self.front => head.set_base(self.play),
            19 => head.set_base(self.play | TOP_BIT),
            20..=21 => head.report(random, self.play, last),
            _ => Ok(()),
        }
    }

    /// The show goes on elsewhere: the window is cleared, and packets on the way are late or far ahead.
    fn jump(&mut self, random: &mut Random, head: &mut Head) -> Result<(), String> {
        self.traffic.jumps += 1;
        if random.percent(50) {
            head.clear()?;
        } else {
            head.clear_bounded(random.below(257))?;
        }
        if random.percent(50) {
            head.release_all(random)?;
        }
        self.next = add(self.next, random.below(3 * self.window_size));
        self.play = self.next;
        self.follow(head)
    }

    fn tick(&mut self, random: &mut Random, head: &mut Head) -> Result<(), String> {
        self.send(random);
        while let Some(&Reverse((time, sequence))) = self.on_the_way.peek() {
            if time > self.time {
                break;
            }
            self.on_the_way.pop();
            self.receive(random, head, sequence)?;
        }
        if distance(self.play, self.next) > self.delay {
            self.play_one(random, head)?;
        }
        if self.time % self.visit_every == 0 {
            head.release(self.budget)?;
        }
        if random.below(self.window_size / 4 + 20) == 0 {
            self.seldom(random, head)?;
        }
        self.time += 1;
        Ok(())
    }

    /// The end: everything retired, and visits until the halves of their budgets are the retired count.
    fn end(&mut self, random: &mut Random, head: &mut Head) -> Result<(), String> {
        head.check()?;
        head.list()?;
        match random.below(3) {
            0 => head.clear()?,
            1 => head.clear_bounded(random.below(257))?,
            _ => {
                head.remove_range(self.play, add(self.play, self.window_size - 1))?;
                head.clear_bounded(0)?;
            }
        }
        head.check()?;
        head.release_all(random)?;
        head.check()
    }

    pub fn run(&mut self, random: &mut Random, head: &mut Head) -> Result<(), String> {
        self.follow(head)?;
        for _ in 0..self.packets {
            self.tick(random, head)?;
        }
        self.end(random, head)
    }
}
