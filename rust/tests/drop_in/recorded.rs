//! Lists of a test that record what a call asks of them.
use std::cell::{Cell, RefCell};
use std::rc::Rc;

/// What a call asks of the list of this number.
#[derive(Clone, Copy, Debug, PartialEq, Eq)]
pub enum Call {
    /// It makes the iterator.
    IntoIter(u8),
    /// It asks for the length.
    Len(u8),
    /// It asks for an item.
    Next(u8),
}

/// The calls so far, in their order.
pub type Log = Rc<RefCell<Vec<Call>>>;

/// Items that two lists share.
pub type Shared<T> = Rc<RefCell<Vec<T>>>;

/// What a list reports as its length.
#[derive(Clone, Debug)]
pub enum Length {
    /// The number of items that are left.
    Left,
    /// This number, whatever it has.
    Said(usize),
}

/// A list of a test. `items` may be shared with another list, which fills it.
#[derive(Clone)]
pub struct List<T> {
    pub number: u8,
    pub log: Log,
    pub items: Shared<T>,
    pub length: Length,
    /// The items that the list appends to those of another one, at its end.
    pub fills: Option<(Vec<T>, Shared<T>)>,
    /// The call, counted from 0, at which the list panics.
    pub panics_at: Option<usize>,
}

impl<T: Clone> List<T> {
    pub fn new(number: u8, log: &Log, items: &[T]) -> Self {
        List {
            number,
            log: log.clone(),
            items: Rc::new(RefCell::new(items.to_vec())),
            length: Length::Left,
            fills: None,
            panics_at: None,
        }
    }
}

/// The iterator of a list: how many items it has yielded, and how many calls it has had.
pub struct Items<T> {
    list: List<T>,
    next: usize,
    calls: Cell<usize>,
}

impl<T> Items<T> {
    /// Records a call.
    fn asked(&self, call: Call) {
        self.list.log.borrow_mut().push(call);
        let calls = self.calls.replace(self.calls.get() + 1);
        if self.list.panics_at == Some(calls) {
            panic!("{call:?}");
        }
    }
}

impl<T: Clone> IntoIterator for List<T> {
    type Item = T;
    type IntoIter = Items<T>;

    fn into_iter(self) -> Items<T> {
        let number = self.number;
        let items = Items {
            list: self,
            next: 0,
            calls: Cell::new(0),
        };
        items.asked(Call::IntoIter(number));
        items
    }
}

impl<T: Clone> Iterator for Items<T> {
    type Item = T;

    fn next(&mut self) -> Option<T> {
        self.asked(Call::Next(self.list.number));
        let item = self.list.items.borrow().get(self.next).cloned();
        self.next += 1;
        if item.is_none()
            && let Some((items, other)) = self.list.fills.take()
        {
            other.borrow_mut().extend(items);
        }
        item
    }
}

impl<T: Clone> ExactSizeIterator for Items<T> {
    fn len(&self) -> usize {
        self.asked(Call::Len(self.list.number));
        match self.list.length {
            Length::Left => self.list.items.borrow().len().saturating_sub(self.next),
            Length::Said(length) => length,
        }
    }
}
