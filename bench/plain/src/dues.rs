//! Due times by SID, in blocks, each with the least of its times: a block where nothing is due is passed over.

const BLOCK: usize = 64;

/// The due time of a SID for which nothing is ever due.
pub const NEVER: u64 = u64::MAX;

#[derive(Default)]
pub struct Dues {
    times: Vec<u64>,
    // No time of a block lies before this.
    least: Vec<u64>,
}

impl Dues {
    /// Sets the due time at a place, one below the SID.
    pub fn set(&mut self, place: usize, due: u64) {
        if place >= self.times.len() {
            self.times.resize(place + 1, NEVER);
            self.least.resize(self.times.len().div_ceil(BLOCK), NEVER);
        }
        self.times[place] = due;
        let least = &mut self.least[place / BLOCK];
        *least = due.min(*least);
    }

    pub fn forget(&mut self, place: usize) {
        if let Some(time) = self.times.get_mut(place) {
            *time = NEVER;
        }
    }

    /// Lends each time before an end, by SID, to be changed.
    pub fn for_each_before(&mut self, end: u64, mut serve: impl FnMut(usize, &mut u64)) {
        for block in 0..self.least.len() {
            if self.least[block] >= end {
                continue;
            }
            let first = block * BLOCK;
            let behind = self.times.len().min(first + BLOCK);
            let mut next = NEVER;
            for (within, time) in self.times[first..behind].iter_mut().enumerate() {
                if *time < end {
                    serve(first + within, time);
                }
                next = next.min(*time);
            }
            self.least[block] = next;
        }
    }

    pub fn time(&mut self, place: usize) -> &mut u64 {
        &mut self.times[place]
    }

    /// Notes that the time at a place was changed.
    pub fn note(&mut self, place: usize) {
        let least = &mut self.least[place / BLOCK];
        *least = self.times[place].min(*least);
    }
}
