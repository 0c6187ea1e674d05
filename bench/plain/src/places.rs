//! Values by place of the log, all their bytes in one list.

#[derive(Clone, Copy, Default)]
struct Entry {
    at: u32,
    len: u8,
    room: u8,
}

/// A value a place, or none. A value has at most 64 bytes.
#[derive(Default)]
pub struct Places {
    entries: Vec<Entry>,
    // A bit for each place that has a value.
    present: Vec<u64>,
    bytes: Vec<u8>,
}

impl Places {
    fn is_present(&self, at: usize) -> bool {
        match self.present.get(at / 64) {
            Some(word) => word >> (at % 64) & 1 == 1,
            None => false,
        }
    }

    fn value(&self, at: usize) -> &[u8] {
        let entry = self.entries[at];
        let from = entry.at as usize;
        &self.bytes[from..from + usize::from(entry.len)]
    }

    pub fn get(&self, place: u64) -> Option<&[u8]> {
        let at = place as usize;
        self.is_present(at).then(|| self.value(at))
    }

    pub fn contains(&self, place: u64) -> bool {
        self.is_present(place as usize)
    }

    pub fn put(&mut self, place: u64, value: &[u8]) {
        let at = place as usize;
        if at >= self.entries.len() {
            self.entries.resize(at + 1, Entry::default());
            self.present.resize(at / 64 + 1, 0);
        }
        self.present[at / 64] |= 1 << (at % 64);
        let entry = &mut self.entries[at];
        entry.len = value.len() as u8;
        if entry.len <= entry.room {
            let from = entry.at as usize;
            self.bytes[from..from + value.len()].copy_from_slice(value);
        } else {
            entry.room = entry.len;
            entry.at = self.bytes.len() as u32;
            self.bytes.extend_from_slice(value);
        }
    }

    /// The places from one on that have a value, ascending, each with it.
    pub fn iter_from(&self, place: u64) -> impl Iterator<Item = (u64, &[u8])> {
        let first = place as usize;
        let words = self.present.iter().enumerate().skip(first / 64);
        words.flat_map(move |(number, word)| {
            let base = number * 64;
            let mut left = if base < first {
                word & u64::MAX << (first - base)
            } else {
                *word
            };
            std::iter::from_fn(move || {
                if left == 0 {
                    return None;
                }
                let at = base + left.trailing_zeros() as usize;
                left &= left - 1;
                Some((at as u64, self.value(at)))
            })
        })
    }

    /// At most how many places from one on there are, and how many bytes their values have.
    pub fn most_from(&self, place: u64) -> (usize, usize) {
        let rows = self.entries.len().saturating_sub(place as usize);
        if rows == 0 {
            return (0, 0);
        }
        (rows, self.bytes.len().min(rows * crate::LONGEST_VALUE))
    }
}
