//! A short list, here a vector like any other.

use plain::{AllocFailed, Global};

#[derive(Debug, Clone, PartialEq, Eq)]
pub struct SmallVec<T, const N: usize>(plain::Vec<T>);

impl<T, const N: usize> SmallVec<T, N> {
    pub fn new(alloc: Global) -> SmallVec<T, N> {
        SmallVec(plain::Vec::new(alloc))
    }

    pub fn as_slice(&self) -> &[T] {
        self.0.as_slice()
    }

    pub fn push(&mut self, item: T) -> Result<(), AllocFailed<T>> {
        self.0.push(item)
    }
}
