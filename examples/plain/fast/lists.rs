//! Lists of nodes, of which short ones are in place.

use std::ops::Deref;

/// As many entries are in place.
const SHORT: usize = 8;

/// A list of nodes. A list that has become long stays where it is until it is made anew.
#[derive(Clone)]
pub enum Nodes {
    Short { length: u32, entries: [u32; SHORT] },
    Long(Vec<u32>),
}

impl Nodes {
    /// An empty list.
    pub fn new() -> Self {
        Self::Short {
            length: 0,
            entries: [0; SHORT],
        }
    }

    /// Takes all entries out.
    pub fn clear(&mut self) {
        *self = Self::new();
    }

    /// Adds an entry behind the others.
    pub fn push(&mut self, node: u32) {
        match self {
            Self::Short { length, entries } if (*length as usize) < SHORT => {
                entries[*length as usize] = node;
                *length += 1;
            }
            Self::Short { entries, .. } => {
                *self = Self::Long(entries.iter().copied().chain([node]).collect());
            }
            Self::Long(all) => all.push(node),
        }
    }

    /// Adds entries behind the others.
    pub fn extend(&mut self, nodes: impl IntoIterator<Item = u32>) {
        nodes.into_iter().for_each(|node| self.push(node));
    }

    /// Keeps the first entries, so many at most.
    pub fn truncate(&mut self, most: usize) {
        match self {
            Self::Short { length, .. } => *length = (*length).min(most as u32),
            Self::Long(all) => all.truncate(most),
        }
    }

    /// Keeps the entries that are such.
    pub fn retain(&mut self, is_such: impl Fn(&u32) -> bool) {
        if !self.iter().all(&is_such) {
            *self = self.iter().copied().filter(is_such).collect();
        }
    }

    /// Puts an entry before the one at this index.
    pub fn insert(&mut self, index: usize, node: u32) {
        let (before, after) = self.split_at(index);
        *self = [before, &[node], after].concat().into_iter().collect();
    }

    /// Takes out the entry at this index.
    pub fn remove(&mut self, index: usize) {
        let (before, after) = self.split_at(index);
        *self = [before, &after[1..]].concat().into_iter().collect();
    }
}

impl Default for Nodes {
    fn default() -> Self {
        Self::new()
    }
}

impl Deref for Nodes {
    type Target = [u32];

    #[inline]
    fn deref(&self) -> &[u32] {
        match self {
            Self::Short { length, entries } => &entries[..(*length as usize).min(SHORT)],
            Self::Long(all) => all,
        }
    }
}

impl FromIterator<u32> for Nodes {
    fn from_iter<T: IntoIterator<Item = u32>>(nodes: T) -> Self {
        let mut list = Self::new();
        list.extend(nodes);
        list
    }
}

impl<const COUNT: usize> From<[u32; COUNT]> for Nodes {
    fn from(nodes: [u32; COUNT]) -> Self {
        nodes.into_iter().collect()
    }
}

/// Makes a list a node and others after it, cut to the most entries.
pub fn renew(list: &mut Nodes, first: u32, others: &[u32], most: usize) {
    let length = most.min(others.len() + 1);
    let others = &others[..length - 1];
    *list = if length <= SHORT {
        let mut entries = [first; SHORT];
        for (entry, &other) in entries[1..].iter_mut().zip(others) {
            *entry = other;
        }
        Nodes::Short {
            length: length as u32,
            entries,
        }
    } else {
        Nodes::Long([&[first], others].concat())
    };
}
