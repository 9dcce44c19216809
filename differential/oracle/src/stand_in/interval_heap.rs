//! A stand-in of our own for the heap with two ends: a queue kept in order.
//! Equal items leave at the front in the order they came.

use std::collections::VecDeque;

pub struct IntervalHeap<T> {
    items: VecDeque<T>,
}

impl<T: Ord> IntervalHeap<T> {
    pub fn with_capacity(capacity: usize) -> Self {
        Self {
            items: VecDeque::with_capacity(capacity),
        }
    }

    pub fn push(&mut self, item: T) {
        let place = self.items.partition_point(|held| *held <= item);
        self.items.insert(place, item);
    }

    pub fn pop_min(&mut self) -> Option<T> {
        self.items.pop_front()
    }

    pub fn pop_max(&mut self) -> Option<T> {
        self.items.pop_back()
    }
}
