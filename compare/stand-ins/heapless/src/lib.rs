//! Stands for the published crate `heapless`, which is absent. Only its `Vec`,
//! here over the ordinary `Vec`.
//!
//! Assumed of the real crate:
//! - a `push` on `N` elements hands the new one back and changes nothing;
//! - elements keep the order they were pushed in;
//! - `swap_remove` moves the last element into the hole.

use std::ops::{Deref, DerefMut};

/// At most `N` elements.
#[derive(Debug, Clone, PartialEq, Eq)]
pub struct Vec<T, const N: usize>(std::vec::Vec<T>);

impl<T, const N: usize> Vec<T, N> {
    #[expect(clippy::new_without_default)]
    pub const fn new() -> Self {
        Self(std::vec::Vec::new())
    }

    pub fn push(&mut self, item: T) -> Result<(), T> {
        if self.0.len() < N {
            self.0.push(item);
            Ok(())
        } else {
            Err(item)
        }
    }

    pub fn swap_remove(&mut self, index: usize) -> T {
        self.0.swap_remove(index)
    }
}

impl<T, const N: usize> Deref for Vec<T, N> {
    type Target = [T];

    fn deref(&self) -> &[T] {
        &self.0
    }
}

impl<T, const N: usize> DerefMut for Vec<T, N> {
    fn deref_mut(&mut self) -> &mut [T] {
        &mut self.0
    }
}

impl<T, const N: usize> IntoIterator for Vec<T, N> {
    type Item = T;
    type IntoIter = std::vec::IntoIter<T>;

    fn into_iter(self) -> Self::IntoIter {
        self.0.into_iter()
    }
}
