//! A short list without a heap.

use crate::Refusal;
use core::fmt;
use core::ops::Deref;

/// As many as a message may have of transports or components: it is a slice, by `Deref`.
///
/// ```
/// use pitokaenge::{Refusal, UpToEight};
///
/// let transports = UpToEight::new(&[0, 1])?;
/// assert_eq!(*transports, [0, 1]);
/// assert_eq!(UpToEight::new(&[0; 9]), Err(Refusal::Argument));
/// # Ok::<(), Refusal>(())
/// ```
#[derive(Clone, Copy, Default, PartialEq, Eq)]
pub struct UpToEight<T> {
    /// The default behind the count.
    all: [T; 8],
    count: usize,
}

impl<T: Copy + Default> UpToEight<T> {
    /// Refused by 15 if there are more than eight.
    pub fn new(items: &[T]) -> Result<UpToEight<T>, Refusal> {
        let mut all = [T::default(); 8];
        all.get_mut(..items.len())
            .ok_or(Refusal::Argument)?
            .copy_from_slice(items);
        Ok(UpToEight {
            all,
            count: items.len(),
        })
    }

    pub(crate) fn map<U: Copy + Default>(&self, each: impl Fn(T) -> U) -> UpToEight<U> {
        let mut all = [U::default(); 8];
        for (there, here) in all.iter_mut().zip(self.iter()) {
            *there = each(*here);
        }
        UpToEight {
            all,
            count: self.count,
        }
    }
}

impl<T> Deref for UpToEight<T> {
    type Target = [T];

    fn deref(&self) -> &[T] {
        &self.all[..self.count]
    }
}

impl<T: fmt::Debug> fmt::Debug for UpToEight<T> {
    fn fmt(&self, f: &mut fmt::Formatter<'_>) -> fmt::Result {
        (**self).fmt(f)
    }
}
