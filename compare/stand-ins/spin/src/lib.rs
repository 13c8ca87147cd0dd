//! Stands for the published crate `spin`, which is absent. Only its `Mutex`,
//! here over the ordinary one.
//!
//! Assumed of the real crate:
//! - `lock` waits and always succeeds: a panic while it is held spoils nothing;
//! - the guard lets go where it goes out of scope.

use std::sync::{Mutex as Inner, MutexGuard, PoisonError};

pub struct Mutex<T>(Inner<T>);

impl<T> Mutex<T> {
    pub const fn new(value: T) -> Self {
        Self(Inner::new(value))
    }

    pub fn lock(&self) -> MutexGuard<'_, T> {
        self.0.lock().unwrap_or_else(PoisonError::into_inner)
    }
}
