//! Where each packet store is, by its number, kept outside of the window.

use crate::calls::Random;

#[derive(Debug, Clone, Copy, PartialEq, Eq)]
pub enum Place {
    Free,
    /// Taken for a packet that is to enter the window.
    Taken,
    Live,
    Retired,
}

pub struct Ledger {
    places: Vec<Place>,
    free: Vec<u32>,
    live: u32,
    retired: u32,
}

impl Ledger {
    pub fn new(stores: u32) -> Self {
        Self { places: vec![Place::Free; stores as usize], free: (0..stores).collect(), live: 0, retired: 0 }
    }

    pub fn live(&self) -> u32 {
        self.live
    }

    pub fn retired(&self) -> u32 {
        self.retired
    }

    fn count(&mut self, place: Place) -> Option<&mut u32> {
        match place {
            Place::Live => Some(&mut self.live),
            Place::Retired => Some(&mut self.retired),
            _ => None,
        }
    }

    /// The store goes from one place to another; an error if it is not there.
    fn moves(&mut self, store: u32, from: Place, to: Place) -> Result<(), String> {
        match self.places.get_mut(store as usize) {
            None => return Err(format!("there is no store {store}")),
            Some(place) if *place == from => *place = to,
            Some(place) => return Err(format!("store {store} is {place:?}, not {from:?}")),
        }
        if let Some(count) = self.count(from) {
            *count -= 1;
        }
        if let Some(count) = self.count(to) {
            *count += 1;
        }
        if to == Place::Free {
            self.free.push(store);
        }
        Ok(())
    }

    /// A free store, taken.
    pub fn take(&mut self, random: &mut Random) -> Option<u32> {
        if self.free.is_empty() {
            return None;
        }
        let store = self.free.swap_remove(random.below(self.free.len() as u32) as usize);
        self.places[store as usize] = Place::Taken;
        Some(store)
    }

    /// The window took it.
    pub fn enters(&mut self, store: u32) -> Result<(), String> {
        self.moves(store, Place::Taken, Place::Live)
    }

    /// The window did not take it.
    pub fn stays(&mut self, store: u32) -> Result<(), String> {
        self.moves(store, Place::Taken, Place::Free)
    }

    /// A live one was handed back by an answer.
    pub fn leaves(&mut self, store: u32) -> Result<(), String> {
        self.moves(store, Place::Live, Place::Free)
    }

    pub fn retires(&mut self, store: u32) -> Result<(), String> {
        self.moves(store, Place::Live, Place::Retired)
    }

    /// A retired one was handed back in a return list.
    pub fn released(&mut self, store: u32) -> Result<(), String> {
        self.moves(store, Place::Retired, Place::Free)
    }

    /// Whether every store is free again.
    pub fn all_free(&self) -> Result<(), String> {
        match self.places.iter().position(|&place| place != Place::Free) {
            None => Ok(()),
            Some(store) => Err(format!("store {store} is still {:?}", self.places[store])),
        }
    }
}

/// A ledger that is told of a store twice, or never, says so.
pub fn self_test() -> Result<(), String> {
    let mut random = Random::new(1);
    let mut ledger = Ledger::new(2);
    let store = ledger.take(&mut random).ok_or("no store is free")?;
    ledger.enters(store)?;
    ledger.retires(store)?;
    let never = ledger.all_free();
    ledger.released(store)?;
    let twice = ledger.released(store);
    ledger.all_free()?;
    match (never, twice, ledger.released(2)) {
        (Err(_), Err(_), Err(_)) => Ok(()),
        other => Err(format!("the ledger takes what is wrong: {other:?}")),
    }
}
