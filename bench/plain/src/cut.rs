//! A MAP while it is filled: free runs and placements, both by offset, in fixed arrays.

use crate::body::{with_head, word, Head, EVERYBODY, HEAD, NULL, REQUEST};

const MOST_PLACEMENTS: usize = 60;

/// A MAP has at most this many free runs, and one more for a moment.
const MOST_GAPS: usize = MOST_PLACEMENTS + 2;

#[derive(Clone, Copy, Default)]
struct Gap {
    from: u32,
    to: u32,
}

#[derive(Clone, Copy, Default)]
struct Placed {
    word: u32,
    from: u16,
    to: u16,
}

/// Where a run fits: its offset, and the number of the gap.
#[derive(Clone, Copy)]
pub struct Fit {
    gap: usize,
    offset: u32,
}

pub struct Filling {
    start: u64,
    len: u32,
    gaps: [Gap; MOST_GAPS],
    gap_count: usize,
    placed: [Placed; MOST_PLACEMENTS],
    placed_count: usize,
    // So many minislots hold no placement.
    free: u32,
}

impl Filling {
    pub fn new() -> Filling {
        Filling {
            start: 0,
            len: 0,
            gaps: [Gap::default(); MOST_GAPS],
            gap_count: 0,
            placed: [Placed::default(); MOST_PLACEMENTS],
            placed_count: 0,
            free: 0,
        }
    }

    /// Begins a MAP.
    pub fn open(&mut self, start: u64, len: u16) {
        self.start = start;
        self.len = u32::from(len);
        self.gaps[0] = Gap {
            from: 0,
            to: self.len,
        };
        self.gap_count = 1;
        self.placed_count = 0;
        self.free = self.len;
    }

    pub fn start(&self) -> u64 {
        self.start
    }

    pub fn end(&self) -> u64 {
        self.start + u64::from(self.len)
    }

    pub fn is_full(&self) -> bool {
        self.placed_count == MOST_PLACEMENTS
    }

    /// How many minislots hold no placement.
    pub fn free(&self) -> u32 {
        self.free
    }

    /// The least start from lo to hi at which n minislots are free and end by a last one.
    pub fn first_fit(&self, n: u16, lo: u64, hi: u64, last: u64) -> Option<Fit> {
        if self.is_full() {
            return None;
        }
        let latest = hi.min((last + 1).checked_sub(u64::from(n))?);
        let latest = latest.checked_sub(self.start)?.min(u64::from(self.len)) as u32;
        let first = lo.saturating_sub(self.start).min(u64::from(self.len)) as u32;
        let gaps = &self.gaps[..self.gap_count];
        let passed = match gaps.last() {
            _ if first == 0 => 0,
            Some(gap) if gap.from <= first => gaps.len() - 1,
            _ => gaps.partition_point(|gap| gap.to <= first),
        };
        for (further, gap) in gaps[passed..].iter().enumerate() {
            let offset = gap.from.max(first);
            if offset > latest {
                return None;
            }
            if offset + u32::from(n) <= gap.to {
                let gap = passed + further;
                return Some(Fit { gap, offset });
            }
        }
        None
    }

    /// Places n minislots where they fit, for an element without its offset.
    pub fn place(&mut self, fit: Fit, n: u16, element: u32) {
        let from = fit.offset;
        let to = from + u32::from(n);
        self.carve(fit.gap, from, to);
        let placed = Placed {
            word: element | from,
            from: from as u16,
            to: to as u16,
        };
        let count = self.placed_count;
        let mut at = count;
        while at > 0 && self.placed[at - 1].from > placed.from {
            at -= 1;
        }
        if at < count {
            self.placed.copy_within(at..count, at + 1);
        }
        self.placed[at] = placed;
        self.placed_count += 1;
        self.free -= u32::from(n);
    }

    fn carve(&mut self, number: usize, from: u32, to: u32) {
        let gap = self.gaps[number];
        let count = self.gap_count;
        match (gap.from < from, to < gap.to) {
            (false, false) => {
                self.gaps.copy_within(number + 1..count, number);
                self.gap_count -= 1;
            }
            (true, false) => self.gaps[number].to = from,
            (false, true) => self.gaps[number].from = to,
            (true, true) => {
                self.gaps.copy_within(number..count, number + 1);
                self.gaps[number].to = from;
                self.gaps[number + 1].from = to;
                self.gap_count += 1;
            }
        }
    }

    /// The bytes of the MAP: an element for each placement and each gap, the Null, and the pending ones, which are
    /// given without their offset.
    pub fn draw(&self, head: &Head, pending: impl ExactSizeIterator<Item = u32>) -> Vec<u8> {
        let count = self.placed_count + self.gap_count + 1 + pending.len();
        let mut bytes = with_head(head, count);
        let (words, _) = bytes[HEAD..].as_chunks_mut::<4>();
        let mut words = words.iter_mut();
        let mut put = |word: u32| {
            if let Some(place) = words.next() {
                *place = word.to_be_bytes();
            }
        };
        let len = self.len as u16;
        let mut at = 0;
        for placed in &self.placed[..self.placed_count] {
            if at < placed.from {
                put(word(EVERYBODY, REQUEST, at));
            }
            put(placed.word);
            at = placed.to;
        }
        if at < len {
            put(word(EVERYBODY, REQUEST, at));
        }
        put(word(0, NULL, len));
        for (place, element) in words.zip(pending) {
            *place = (element | self.len).to_be_bytes();
        }
        bytes
    }
}

impl Default for Filling {
    fn default() -> Filling {
        Filling::new()
    }
}
