//! Matches the parts of two builds of a module.
use crate::name::Entry;
use crate::sections::Section;
use crate::sizes::Function;
use std::cmp::Reverse;
use std::collections::{HashMap, VecDeque};
use std::fmt::{self, Display};
use std::hash::Hash;
use std::iter::Sum;

/// A part of a module, which prints as what it is.
pub trait Part: Display {
    /// Its size in bytes.
    fn size(&self) -> usize;

    /// Its number or index, by which parts of equal changes are sorted.
    fn number(&self) -> usize;
}

impl Part for Section<'_> {
    fn size(&self) -> usize {
        self.bytes().len()
    }

    fn number(&self) -> usize {
        self.number
    }
}

impl Part for Function<'_> {
    fn size(&self) -> usize {
        self.size
    }

    fn number(&self) -> usize {
        self.index as usize
    }
}

/// A data segment.
pub struct Segment<'a> {
    /// The size of its encoding in bytes: flags, address, size prefix and bytes.
    pub size: usize,
    pub entry: Entry<'a>,
}

impl Part for Segment<'_> {
    fn size(&self) -> usize {
        self.size
    }

    fn number(&self) -> usize {
        self.entry.index as usize
    }
}

/// `data 3 <name>`.
impl Display for Segment<'_> {
    fn fmt(&self, f: &mut fmt::Formatter<'_>) -> fmt::Result {
        write!(f, "{} {}", self.entry.kind, self.entry)
    }
}

/// The sizes of a part in the old and in the new build, in bytes. A build without the part has
/// none.
#[derive(Clone, Copy)]
pub struct Growth {
    pub before: Option<usize>,
    pub after: Option<usize>,
}

impl Growth {
    pub const fn of(before: usize, after: usize) -> Self {
        Growth {
            before: Some(before),
            after: Some(after),
        }
    }

    /// The sizes, where a missing part has no bytes.
    pub fn sizes(self) -> [usize; 2] {
        [self.before, self.after].map(Option::unwrap_or_default)
    }

    /// How many bytes the new build has more.
    pub fn change(self) -> i64 {
        let [before, after] = self.sizes();
        after as i64 - before as i64
    }

    /// The change in percent of the old size, if that is not 0.
    pub fn percent(self) -> Option<f64> {
        let before = self.before.filter(|size| *size > 0)?;
        Some(100.0 * self.change() as f64 / before as f64)
    }

    /// The sizes of what is not in a part.
    pub fn without(self, part: Growth) -> Self {
        let ([before, after], [less, less_after]) = (self.sizes(), part.sizes());
        Growth::of(before - less, after - less_after)
    }
}

impl Sum for Growth {
    fn sum<I: Iterator<Item = Growth>>(parts: I) -> Self {
        let sizes = parts.map(Growth::sizes);
        let [before, after] = sizes.fold([0, 0], |sum, part| [sum[0] + part[0], sum[1] + part[1]]);
        Growth::of(before, after)
    }
}

/// What became of a part.
pub enum Change<T> {
    Added(T),
    Removed(T),
    Kept { before: T, after: T },
}

impl<T: Part> Change<T> {
    /// The part as the new build has it, or the old one if it is removed.
    pub fn part(&self) -> &T {
        match self {
            Change::Added(part) | Change::Removed(part) | Change::Kept { after: part, .. } => part,
        }
    }

    pub fn growth(&self) -> Growth {
        let (before, after) = match self {
            Change::Added(part) => (None, Some(part)),
            Change::Removed(part) => (Some(part), None),
            Change::Kept { before, after } => (Some(before), Some(after)),
        };
        Growth {
            before: before.map(T::size),
            after: after.map(T::size),
        }
    }
}

/// The parts of two builds: those that are matched, and those that are not yet.
pub struct Matching<T> {
    changes: Vec<Change<T>>,
    old: Vec<T>,
    new: Vec<T>,
}

impl<T: Part> Matching<T> {
    pub fn of([old, new]: [Vec<T>; 2]) -> Self {
        Matching {
            changes: Vec::new(),
            old,
            new,
        }
    }

    /// Matches parts of equal keys, in their order. A part without a key stays as it is.
    pub fn by<K: Eq + Hash>(mut self, key: impl Fn(&T) -> Option<K>) -> Self {
        let mut numbers: HashMap<K, VecDeque<usize>> = HashMap::new();
        for (number, part) in self.new.iter().enumerate() {
            if let Some(key) = key(part) {
                numbers.entry(key).or_default().push_back(number);
            }
        }
        let mut new: Vec<_> = self.new.into_iter().map(Some).collect();
        let mut take = |old: &T| new[numbers.get_mut(&key(old)?)?.pop_front()?].take();
        let mut old = Vec::new();
        for before in self.old {
            match take(&before) {
                Some(after) => self.changes.push(Change::Kept { before, after }),
                None => old.push(before),
            }
        }
        Matching {
            changes: self.changes,
            old,
            new: new.into_iter().flatten().collect(),
        }
    }

    /// What became of each part, the largest change first. Parts that are not matched are removed
    /// or added.
    pub fn changes(self) -> Vec<Change<T>> {
        let mut changes = self.changes;
        changes.extend(self.old.into_iter().map(Change::Removed));
        changes.extend(self.new.into_iter().map(Change::Added));
        changes.sort_by_key(|it| (Reverse(it.growth().change().abs()), it.part().number()));
        changes
    }
}
