//! A heap of blocks, which merges adjacent free blocks.
//!
//! A block begins with a head of 8 bytes: its size with the head, whose lowest bit is set where the
//! block is used, and the size of the block before it, or 0. Two more words of a free block link it
//! to the others of its bin: bin `n` has the free blocks of at least 2^n bytes and less than
//! 2^(n+1). A used block of a head alone ends each run of pages.
#![forbid(unsafe_code)]

/// The memory of a heap: words of 32 bits, at addresses that are multiples of 4.
pub trait Memory {
    fn load(&self, address: u32) -> u32;

    fn store(&mut self, address: u32, word: u32);

    /// Adds at least this many bytes. Returns their first address and the address behind them,
    /// which are multiples of [`ALIGNMENT`].
    fn grow(&mut self, bytes: u32) -> Option<(u32, u32)>;
}

const HEAD: u32 = 8;
const USED: u32 = 1;
const BINS: usize = 32;

/// The alignment of what [`Heap::take`] returns. Sizes of blocks are multiples of it, and a block
/// begins a head before one.
pub const ALIGNMENT: u32 = 16;

/// How many blocks of a bin are tried before a larger block is split.
const TRIES: usize = 16;

/// The blocks of a memory.
pub struct Heap<M> {
    memory: M,
    /// The first block of each bin, or 0.
    bins: [u32; BINS],
    /// The block that ends the last run of pages, or 0.
    fence: u32,
}

/// The size of a block for this many bytes.
fn size_for(bytes: u32) -> Option<u32> {
    bytes.checked_add(HEAD)?.checked_next_multiple_of(ALIGNMENT)
}

fn bin_of(size: u32) -> usize {
    size.ilog2() as usize
}

impl<M: Memory> Heap<M> {
    pub const fn new(memory: M) -> Self {
        Heap {
            memory,
            bins: [0; BINS],
            fence: 0,
        }
    }

    /// Returns the address of this many bytes, which nothing else has, or `None` where the memory
    /// does not grow.
    pub fn take(&mut self, bytes: u32) -> Option<u32> {
        let size = size_for(bytes)?;
        let block = match self.find(size) {
            Some(block) => block,
            None => self.extend(size)?,
        };
        self.unlink(block);
        self.mark_used(block);
        self.cut(block, size);
        Some(block + HEAD)
    }

    /// Takes back what [`Self::take`] returned.
    pub fn give(&mut self, address: u32) {
        let mut block = address - HEAD;
        let mut size = self.size(block);
        let next = block + size;
        if !self.is_used(next) {
            self.unlink(next);
            size += self.size(next);
        }
        let before = self.memory.load(block + 4);
        if before != 0 && !self.is_used(block - before) {
            block -= before;
            self.unlink(block);
            size += before;
        }
        self.set_free(block, size);
    }

    /// Changes the number of bytes at this address, and returns whether there is space for them.
    pub fn resize(&mut self, address: u32, bytes: u32) -> bool {
        let Some(size) = size_for(bytes) else {
            return false;
        };
        let block = address - HEAD;
        let old = self.size(block);
        if old < size {
            let next = block + old;
            let sum = old + self.size(next);
            if self.is_used(next) || sum < size {
                return false;
            }
            self.unlink(next);
            self.set_size(block, sum);
        }
        self.cut(block, size);
        true
    }

    fn size(&self, block: u32) -> u32 {
        self.memory.load(block) & !USED
    }

    fn is_used(&self, block: u32) -> bool {
        self.memory.load(block) & USED != 0
    }

    fn mark_used(&mut self, block: u32) {
        let size = self.size(block);
        self.memory.store(block, size | USED);
    }

    /// Sets the size of a used block.
    fn set_size(&mut self, block: u32, size: u32) {
        self.memory.store(block, size | USED);
        self.memory.store(block + size + 4, size);
    }

    /// Makes a free block of this size.
    fn set_free(&mut self, block: u32, size: u32) {
        self.memory.store(block, size);
        self.memory.store(block + size + 4, size);
        let bin = bin_of(size);
        let next = self.bins[bin];
        self.memory.store(block + 8, next);
        self.memory.store(block + 12, 0);
        if next != 0 {
            self.memory.store(next + 12, block);
        }
        self.bins[bin] = block;
    }

    /// Takes a free block from its bin.
    fn unlink(&mut self, block: u32) {
        let next = self.memory.load(block + 8);
        let before = self.memory.load(block + 12);
        if next != 0 {
            self.memory.store(next + 12, before);
        }
        if before != 0 {
            self.memory.store(before + 8, next);
        } else {
            self.bins[bin_of(self.size(block))] = next;
        }
    }

    /// Frees what a used block has past this size, if that is a block.
    fn cut(&mut self, block: u32, size: u32) {
        let rest = self.size(block) - size;
        if rest > 0 {
            self.set_size(block, size);
            self.set_size(block + size, rest);
            self.give(block + size + HEAD);
        }
    }

    /// A free block of at least this size.
    fn find(&self, size: u32) -> Option<u32> {
        let bin = bin_of(size);
        let mut block = self.bins[bin];
        for _ in 0..TRIES {
            if block == 0 {
                break;
            }
            if self.size(block) >= size {
                return Some(block);
            }
            block = self.memory.load(block + 8);
        }
        self.bins[bin + 1..]
            .iter()
            .copied()
            .find(|block| *block != 0)
    }

    /// Adds pages, and returns a free block of at least this size.
    fn extend(&mut self, size: u32) -> Option<u32> {
        let (first, end) = self.memory.grow(size.checked_add(ALIGNMENT)?)?;
        let joins = self.fence != 0 && first == self.fence + HEAD;
        let block = if joins { self.fence } else { first + HEAD };
        if !joins {
            self.memory.store(block + 4, 0);
        }
        self.fence = end - HEAD;
        self.memory.store(self.fence, HEAD | USED);
        let size = self.fence - block;
        self.set_size(block, size);
        self.give(block + HEAD);
        let before = self.memory.load(self.fence + 4);
        Some(self.fence - before)
    }
}

#[cfg(test)]
mod tests {
    use super::*;

    /// Pages that end at an address.
    struct Words {
        words: Vec<u32>,
        most: u32,
    }

    const PAGE: u32 = 1 << 12;

    impl Memory for Words {
        fn load(&self, address: u32) -> u32 {
            assert_eq!(address % 4, 0);
            self.words[(address / 4) as usize]
        }

        fn store(&mut self, address: u32, word: u32) {
            assert_eq!(address % 4, 0);
            self.words[(address / 4) as usize] = word;
        }

        fn grow(&mut self, bytes: u32) -> Option<(u32, u32)> {
            let first = self.words.len() as u32 * 4;
            let end = first.checked_add(bytes)?.checked_next_multiple_of(PAGE)?;
            (end <= self.most).then(|| self.words.resize((end / 4) as usize, 0xAAAA_AAAA))?;
            Some((first, end))
        }
    }

    /// A heap in a memory of which the first page is another's, and at most this many bytes are.
    fn heap(most: u32) -> Heap<Words> {
        let words = vec![0; PAGE as usize / 4];
        Heap::new(Words { words, most })
    }

    /// Bytes that were taken, each word of which has this value.
    #[derive(Clone, Copy)]
    struct Taken {
        address: u32,
        bytes: u32,
        word: u32,
    }

    impl Taken {
        fn words(&self) -> impl Iterator<Item = u32> + use<> {
            (self.address..self.address + self.bytes / 4 * 4).step_by(4)
        }

        fn fill(&self, heap: &mut Heap<Words>) {
            assert_eq!(self.address % ALIGNMENT, 0);
            assert!(self.address >= PAGE);
            self.words()
                .for_each(|address| heap.memory.store(address, self.word));
        }

        fn check(&self, heap: &Heap<Words>) {
            assert!(
                self.words()
                    .all(|address| heap.memory.load(address) == self.word)
            );
        }
    }

    /// Numbers that look random.
    struct Random(u64);

    impl Random {
        fn below(&mut self, end: u32) -> u32 {
            self.0 = self.0.wrapping_mul(0x5851_F42D_4C95_7F2D).wrapping_add(1);
            ((self.0 >> 33) % u64::from(end)) as u32
        }

        /// Mostly small sizes, and some large ones.
        fn size(&mut self) -> u32 {
            let most = 1 << (1 + self.below(14));
            self.below(most)
        }
    }

    /// Takes, resizes and gives back bytes, and checks that no other call changes them.
    fn work(heap: &mut Heap<Words>, random: &mut Random, turns: u32) {
        let mut all: Vec<Taken> = Vec::new();
        for word in 0..turns {
            let bytes = random.size();
            let one = random.below(all.len() as u32 + 1) as usize;
            match all.get(one).copied() {
                Some(taken) if word % 3 == 0 => {
                    taken.check(heap);
                    heap.give(taken.address);
                    all.swap_remove(one);
                }
                Some(taken) if word % 3 == 1 && heap.resize(taken.address, bytes) => {
                    let kept = bytes.min(taken.bytes);
                    Taken {
                        bytes: kept,
                        ..taken
                    }
                    .check(heap);
                    all[one] = Taken {
                        bytes,
                        word,
                        ..taken
                    };
                    all[one].fill(heap);
                }
                _ => {
                    let address = heap.take(bytes).unwrap();
                    all.push(Taken {
                        address,
                        bytes,
                        word,
                    });
                    all[all.len() - 1].fill(heap);
                }
            }
        }
        for taken in all {
            taken.check(heap);
            heap.give(taken.address);
        }
    }

    /// The sizes of all free blocks.
    fn free(heap: &Heap<Words>) -> Vec<u32> {
        let mut sizes = Vec::new();
        for first in heap.bins {
            let mut block = first;
            while block != 0 {
                sizes.push(heap.size(block));
                block = heap.memory.load(block + 8);
            }
        }
        sizes
    }

    #[test]
    fn nothing_overlaps_and_all_is_merged() {
        for seed in 1..20 {
            let mut heap = heap(u32::MAX);
            work(&mut heap, &mut Random(seed), 3000);
            let bytes = heap.memory.words.len() as u32 * 4 - PAGE;
            assert_eq!(free(&heap), [bytes - ALIGNMENT], "seed {seed}");
        }
    }

    #[test]
    fn the_same_work_takes_no_more_memory() {
        let mut heap = heap(u32::MAX);
        work(&mut heap, &mut Random(7), 3000);
        let words = heap.memory.words.len();
        for _ in 0..5 {
            work(&mut heap, &mut Random(7), 3000);
        }
        assert_eq!(heap.memory.words.len(), words);
    }

    #[test]
    fn a_full_memory_refuses_and_keeps_what_it_has() {
        let mut heap = heap(4 * PAGE);
        let mut taken = Vec::new();
        while let Some(address) = heap.take(100) {
            taken.push(address);
        }
        assert_eq!(taken.len(), (3 * PAGE - ALIGNMENT) as usize / 112);
        assert_eq!(heap.take(1000), None);
        assert!(!heap.resize(taken[0], 1000));
        heap.give(taken[1]);
        assert!(heap.resize(taken[0], 216));
        assert_eq!(heap.take(100), None);
        assert!(heap.resize(taken[0], 104));
        assert_eq!(heap.take(100), Some(taken[1]));
    }

    #[test]
    fn sizes_past_32_bits_are_refused() {
        let mut heap = heap(u32::MAX);
        let address = heap.take(0).unwrap();
        for bytes in [u32::MAX, u32::MAX - 8, u32::MAX - 24, u32::MAX - 40] {
            assert_eq!(heap.take(bytes), None);
            assert!(!heap.resize(address, bytes));
        }
        assert_eq!(heap.take(1), Some(address + ALIGNMENT));
    }

    #[test]
    fn pages_that_do_not_follow_the_last_are_a_run_of_their_own() {
        let mut heap = heap(u32::MAX);
        let first = heap.take(2 * PAGE).unwrap();
        heap.memory.grow(1).unwrap();
        let second = heap.take(2 * PAGE).unwrap();
        heap.give(first);
        heap.give(second);
        assert_eq!(free(&heap), [3 * PAGE - ALIGNMENT; 2]);
    }
}
