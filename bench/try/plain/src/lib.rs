//! What Rattle's std has and Rust's has not, in so far as the search needs it: an allocator that is
//! handed on, vectors and boxes that are given it, and growth that can fail, which here never does.

#![feature(portable_simd)]

use std::ops::{Deref, DerefMut};
use std::simd::{Simd, SimdElement};

#[derive(Clone, Copy, Debug)]
pub struct Global;

#[derive(Clone, Copy, Debug, PartialEq, Eq)]
pub struct AllocError;

#[derive(Debug)]
pub struct AllocFailed<T>(pub T);

impl<T> From<AllocFailed<T>> for AllocError {
    fn from(_: AllocFailed<T>) -> AllocError {
        AllocError
    }
}

pub trait MadeWith<A> {}

impl<T, A> MadeWith<A> for T {}

/// Whatever can be dropped, which is all there is.
pub trait Drop {}

impl<T: ?Sized> Drop for T {}

#[derive(Debug, Clone, PartialEq, Eq)]
pub struct Vec<T>(pub std::vec::Vec<T>);

impl<T> Vec<T> {
    pub fn new(_: Global) -> Vec<T> {
        Vec(std::vec::Vec::new())
    }

    pub fn with_capacity(_: Global, count: usize) -> Result<Vec<T>, AllocError> {
        Ok(Vec(std::vec::Vec::with_capacity(count)))
    }

    pub fn from_slice(_: Global, items: &[T]) -> Result<Vec<T>, AllocError>
    where
        T: Clone,
    {
        Ok(Vec(items.to_vec()))
    }

    #[inline(always)]
    pub fn push(&mut self, item: T) -> Result<(), AllocFailed<T>> {
        self.0.push(item);
        Ok(())
    }

    #[inline(always)]
    pub fn push_reserved(&mut self, item: T) {
        self.0.push(item);
    }

    pub fn pop(&mut self) -> Option<T> {
        self.0.pop()
    }

    pub fn sort_by_key<K: Ord>(&mut self, key: impl FnMut(&T) -> K) -> Result<(), AllocError> {
        self.0.sort_by_key(key);
        Ok(())
    }

    pub fn clear(&mut self) {
        self.0.clear()
    }

    pub fn truncate(&mut self, count: usize) {
        self.0.truncate(count)
    }

    pub fn reserve(&mut self, count: usize) -> Result<(), AllocError> {
        self.0.reserve(count);
        Ok(())
    }

    pub fn resize(&mut self, count: usize, item: T) -> Result<(), AllocError>
    where
        T: Clone,
    {
        self.0.resize(count, item);
        Ok(())
    }

    pub fn extend_from_slice(&mut self, items: &[T]) -> Result<(), AllocError>
    where
        T: Clone,
    {
        self.0.extend_from_slice(items);
        Ok(())
    }

    #[inline(always)]
    pub fn as_slice(&self) -> &[T] {
        &self.0
    }

    #[inline(always)]
    pub fn as_mut_slice(&mut self) -> &mut [T] {
        &mut self.0
    }
}

impl<T> Deref for Vec<T> {
    type Target = [T];

    #[inline(always)]
    fn deref(&self) -> &[T] {
        &self.0
    }
}

impl<T> DerefMut for Vec<T> {
    #[inline(always)]
    fn deref_mut(&mut self) -> &mut [T] {
        &mut self.0
    }
}

impl<T> IntoIterator for Vec<T> {
    type Item = T;
    type IntoIter = std::vec::IntoIter<T>;

    fn into_iter(self) -> Self::IntoIter {
        self.0.into_iter()
    }
}

impl<'a, T> IntoIterator for &'a Vec<T> {
    type Item = &'a T;
    type IntoIter = std::slice::Iter<'a, T>;

    fn into_iter(self) -> Self::IntoIter {
        self.0.iter()
    }
}

/// Collects into a vector.
pub trait CollectIn: Iterator + Sized {
    fn collect_in(self, _: Global) -> Result<Vec<Self::Item>, AllocError> {
        Ok(Vec(self.collect()))
    }
}

impl<I: Iterator> CollectIn for I {}

#[macro_export]
macro_rules! vec_in {
    [in $alloc:expr; $item:expr; $count:expr] => {{
        let _ = $alloc;
        Ok::<_, $crate::AllocError>($crate::Vec(vec![$item; $count]))
    }};
}

#[derive(Debug, Clone, PartialEq, Eq)]
pub struct Box<T>(pub std::boxed::Box<T>);

impl<T> Box<T> {
    pub fn new(_: Global, value: T) -> Result<Box<T>, AllocError> {
        Ok(Box(std::boxed::Box::new(value)))
    }
}

impl<T> Deref for Box<T> {
    type Target = T;

    fn deref(&self) -> &T {
        &self.0
    }
}

/// Lanes in other places, by the numbers of those that come there.
pub trait Shuffled<T: SimdElement, const N: usize> {
    fn swizzle<const M: usize>(self, places: [usize; M]) -> Simd<T, M>;

    fn shuffle<const M: usize>(self, behind: Self, places: [usize; M]) -> Simd<T, M>;
}

impl<T: SimdElement, const N: usize> Shuffled<T, N> for Simd<T, N> {
    #[inline(always)]
    fn swizzle<const M: usize>(self, places: [usize; M]) -> Simd<T, M> {
        let lanes = self.to_array();
        Simd::from_array(places.map(|it| lanes[it]))
    }

    #[inline(always)]
    fn shuffle<const M: usize>(self, behind: Self, places: [usize; M]) -> Simd<T, M> {
        let (first, last) = (self.to_array(), behind.to_array());
        Simd::from_array(places.map(|it| if it < N { first[it] } else { last[it - N] }))
    }
}

/// A setting of the environment, or what stands without it.
pub fn setting<T: std::str::FromStr>(name: &str, usual: T) -> T {
    match std::env::var(name) {
        Ok(text) => text.parse().unwrap_or(usual),
        Err(_) => usual,
    }
}

pub mod prelude {
    pub use crate::{Box, CollectIn, Drop, Shuffled, Vec};
    pub use std::simd::{Select, prelude::*};
}
