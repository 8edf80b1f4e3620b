//! Random lists, which are filled late, lie about their length, and panic: core dumps beside a
//! transcription of the calls that the Rust crate makes.
use crate::recorded::{Call, Length, List, Log};
use dolzhytik::*;
use std::cell::RefCell;
use std::rc::Rc;

/// How many calls the test makes, unless the environment variable `DOLZHYTIK_CALLS` says it while
/// this is compiled.
const CALLS: usize = 20_000;

/// What the calls below append, written by the layouts of `coreinstances` and `corestack`. A list
/// is made and measured, its length is appended, and then its items.
mod transcribed {
    use dolzhytik::CoreDumpValue;

    /// An item of a list.
    pub trait Item {
        fn append(&self, bytes: &mut Vec<u8>);
    }

    pub fn number(mut number: u32, bytes: &mut Vec<u8>) {
        while number >= 0x80 {
            bytes.push(number as u8 | 0x80);
            number >>= 7;
        }
        bytes.push(number as u8);
    }

    impl Item for u32 {
        fn append(&self, bytes: &mut Vec<u8>) {
            number(*self, bytes);
        }
    }

    impl Item for CoreDumpValue {
        fn append(&self, bytes: &mut Vec<u8>) {
            match self {
                CoreDumpValue::F32(float) => {
                    bytes.push(0x7D);
                    bytes.extend(float.bits().to_le_bytes());
                }
                _ => bytes.push(0x01),
            }
        }
    }

    fn list<T: Item, V>(items: V, bytes: &mut Vec<u8>)
    where
        V: IntoIterator<Item = T, IntoIter: ExactSizeIterator>,
    {
        let items = items.into_iter();
        number(u32::try_from(items.len()).expect("a length"), bytes);
        for item in items {
            item.append(bytes);
        }
    }

    pub fn entry<T: Item, V, W>(front: &[u32], first: V, second: W, bytes: &mut Vec<u8>)
    where
        V: IntoIterator<Item = T, IntoIter: ExactSizeIterator>,
        W: IntoIterator<Item = T, IntoIter: ExactSizeIterator>,
    {
        bytes.push(0x00);
        for index in front {
            number(*index, bytes);
        }
        list(first, bytes);
        list(second, bytes);
    }
}

/// Random numbers, of a fixed start.
struct Numbers(u64);

impl Numbers {
    fn next(&mut self) -> u64 {
        self.0 ^= self.0 << 13;
        self.0 ^= self.0 >> 7;
        self.0 ^= self.0 << 17;
        self.0 >> 20
    }

    fn below(&mut self, end: usize) -> usize {
        self.next() as usize % end
    }

    /// A number of a random length of up to 32 bits.
    fn wide(&mut self) -> u32 {
        let bits = self.below(32);
        self.next() as u32 >> bits
    }

    /// A value of a core dump: one without bytes, or a float.
    fn value(&mut self) -> CoreDumpValue {
        match self.below(2) {
            0 => CoreDumpValue::Missing,
            _ => CoreDumpValue::F32(Ieee32::new(self.wide())),
        }
    }

    /// Up to seven items.
    fn items<T>(&mut self, item: fn(&mut Numbers) -> T) -> Vec<T> {
        let count = self.below(8);
        (0..count).map(|_| item(self)).collect()
    }

    /// A length: mostly that of the items, or a wrong one, or one that 32 bits cannot represent, if
    /// a `usize` can.
    fn length(&mut self) -> Length {
        match self.below(8) {
            0 => Length::Said(self.wide() as usize),
            1 => Length::Said(usize::try_from(1_u64 << 32).unwrap_or(usize::MAX)),
            _ => Length::Left,
        }
    }

    /// Two lists of random items: the first may fill the second, and each may lie or panic.
    fn lists<T: Clone>(&mut self, item: fn(&mut Numbers) -> T) -> [Random<T>; 2] {
        let fills = self.below(2) == 0;
        [1, 2].map(|number| Random {
            number,
            items: self.items(item),
            fills: (number == 1 && fills).then(|| self.items(item)),
            length: self.length(),
            panics_at: (self.below(8) == 0).then(|| self.below(6)),
        })
    }
}

/// A list that is made anew for each of two calls.
struct Random<T> {
    number: u8,
    items: Vec<T>,
    fills: Option<Vec<T>>,
    length: Length,
    panics_at: Option<usize>,
}

/// Two lists, and what is asked of them.
struct Pair<T> {
    log: Log,
    first: List<T>,
    second: List<T>,
}

impl<T: Clone> Pair<T> {
    fn of(lists: &[Random<T>; 2]) -> Self {
        let log = Log::default();
        let [mut first, second] = lists.each_ref().map(|it| List {
            number: it.number,
            log: log.clone(),
            items: Rc::new(RefCell::new(it.items.clone())),
            length: it.length.clone(),
            fills: None,
            panics_at: it.panics_at,
        });
        let fills = lists[0].fills.clone();
        first.fills = fills.map(|items| (items, Rc::clone(&second.items)));
        Pair { log, first, second }
    }
}

/// Returns the value of a call, or none if it panics. Expected panics print nothing. On wasm32 the
/// harness has this function.
fn caught<R>(call: impl FnOnce() -> R) -> Option<R> {
    use std::cell::Cell;
    use std::panic::{AssertUnwindSafe, catch_unwind, set_hook, take_hook};
    use std::sync::Once;

    thread_local! {
        /// Whether panics of this thread are expected.
        static EXPECTED: Cell<bool> = const { Cell::new(false) };
    }
    static SILENCED: Once = Once::new();
    SILENCED.call_once(|| {
        let hook = take_hook();
        set_hook(Box::new(move |panic| {
            if !EXPECTED.get() {
                hook(panic);
            }
        }));
    });
    EXPECTED.set(true);
    let value = catch_unwind(AssertUnwindSafe(call)).ok();
    EXPECTED.set(false);
    value
}

/// What is asked of two lists, and the bytes unless a panic ends the call.
type Outcome = (Vec<Call>, Option<Vec<u8>>);

/// The outcome of a call with two lists.
fn outcome<T: Clone>(
    lists: &[Random<T>; 2],
    call: impl FnOnce(List<T>, List<T>) -> Vec<u8>,
) -> Outcome {
    let Pair { log, first, second } = Pair::of(lists);
    let bytes = caught(|| call(first, second));
    let calls = log.borrow().clone();
    (calls, bytes)
}

fn check_instance(numbers: &mut Numbers) -> bool {
    let index = numbers.wide();
    let lists = numbers.lists(Numbers::wide);
    let root = outcome(&lists, |memories, globals| {
        let mut section = CoreDumpInstancesSection::new();
        section.instance(index, memories, globals);
        section.as_custom().data.into_owned()
    });
    let transcribed = outcome(&lists, |memories, globals| {
        let mut bytes = vec![1];
        transcribed::entry(&[index], memories, globals, &mut bytes);
        bytes
    });
    assert_eq!(root, transcribed);
    root.1.is_some()
}

fn check_frame(numbers: &mut Numbers) -> bool {
    let [instance, function, offset] = [(); 3].map(|()| numbers.wide());
    let lists = numbers.lists(Numbers::value);
    let root = outcome(&lists, |locals, stack| {
        let mut section = CoreDumpStackSection::new("");
        section.frame(instance, function, offset, locals, stack);
        section.as_custom().data.into_owned()
    });
    let transcribed = outcome(&lists, |locals, stack| {
        let mut bytes = vec![0, 0, 1];
        transcribed::entry(&[instance, function, offset], locals, stack, &mut bytes);
        bytes
    });
    assert_eq!(root, transcribed);
    root.1.is_some()
}

/// Lists that are filled late, lie about their length, and panic: the same calls in the same order,
/// the same bytes, and a panic at the same call.
#[test]
fn random_lists_beside_a_transcription() {
    let calls = option_env!("DOLZHYTIK_CALLS").map_or(CALLS, |it| it.parse().expect("a number"));
    let mut numbers = Numbers(0x9E37_79B9_7F4A_7C15);
    let answered = (0..calls).filter(|call| match call % 2 {
        0 => check_instance(&mut numbers),
        _ => check_frame(&mut numbers),
    });
    let answered = answered.count();
    assert!(calls < 100 || (calls / 4..calls * 9 / 10).contains(&answered));
}
