//! A table from names to lines. An entry says where a name once stood, and whoever asks looks whether
//! it still stands there. So no edit, undo or redo takes an entry out.

use crate::bytes::hash;
use std::mem;

struct Entry {
    hash: u32,
    line: u32,
    /// The number of the entry before this one in its bucket, from 1.
    before: u32,
}

pub struct Table {
    /// The number of the last entry of each bucket, from 1.
    buckets: Vec<u32>,
    entries: Vec<Entry>,
    /// How many entries are in their buckets.
    linked: u32,
}

impl Table {
    /// An empty table that is quick up to so many entries and some more.
    pub fn new(size: usize) -> Table {
        Table { buckets: vec![0; size.next_power_of_two()], entries: Vec::new(), linked: 0 }
    }

    pub fn put_in(&mut self, name: &[u8], line: u32) {
        self.list(name, line);
        self.link();
    }

    /// Adds an entry, and leaves its bucket for later. The processor looks at several buckets at once
    /// where it does nothing else.
    pub fn list(&mut self, name: &[u8], line: u32) {
        self.entries.push(Entry { hash: hash(name), line, before: 0 });
    }

    /// Puts all entries into their buckets.
    pub fn link(&mut self) {
        let last = self.buckets.len() - 1;
        for entry in &mut self.entries[self.linked as usize..] {
            self.linked += 1;
            entry.before = mem::replace(&mut self.buckets[entry.hash as usize & last], self.linked);
        }
    }

    /// The lines where a name of this hash once stood, the last that was put in first.
    pub fn lines(&self, name: &[u8]) -> impl Iterator<Item = u32> {
        let hash = hash(name);
        let mut next = self.buckets[hash as usize & (self.buckets.len() - 1)];
        std::iter::from_fn(move || {
            while next > 0 {
                let entry = &self.entries[next as usize - 1];
                next = entry.before;
                if entry.hash == hash {
                    return Some(entry.line);
                }
            }
            None
        })
    }
}
