//! Slices that are lent to be written.
use std::env;
use std::fmt;
use std::ops::{Deref, DerefMut};
use std::sync::OnceLock;

/// How many words stand on either side of a lent slice, which nobody may write. Under a checker of memory it is better to have
/// none, so that the allocation ends where the slice does: GUARD_MARGIN=0.
fn margin() -> usize {
    static MARGIN: OnceLock<usize> = OnceLock::new();
    *MARGIN.get_or_init(|| env::var("GUARD_MARGIN").map_or(3, |text| text.parse().expect("GUARD_MARGIN is a number")))
}

/// A slice with a margin on either side. Two are equal if their margins are too.
#[derive(Clone, PartialEq)]
pub struct Lent<X> {
    all: Box<[X]>,
    margin: usize,
}

impl<X: Copy + From<u8>> From<Vec<X>> for Lent<X> {
    fn from(words: Vec<X>) -> Lent<X> {
        let margin = margin();
        let mut all = Vec::with_capacity(words.len() + 2 * margin);
        all.resize(margin, X::from(7));
        all.extend(words);
        all.resize(all.len() + margin, X::from(7));
        Lent { all: all.into(), margin }
    }
}

impl<X> Deref for Lent<X> {
    type Target = [X];

    fn deref(&self) -> &[X] {
        &self.all[self.margin..self.all.len() - self.margin]
    }
}

impl<X> DerefMut for Lent<X> {
    fn deref_mut(&mut self) -> &mut [X] {
        let inner = self.margin..self.all.len() - self.margin;
        &mut self.all[inner]
    }
}

impl<X: fmt::Debug> fmt::Debug for Lent<X> {
    fn fmt(&self, f: &mut fmt::Formatter) -> fmt::Result {
        (**self).fmt(f)
    }
}

impl<X: Copy> Lent<X> {
    /// The same with other words, those in the margins included.
    pub fn map<Y>(&self, word: impl Fn(X) -> Y) -> Lent<Y> {
        Lent { all: self.all.iter().map(|&x| word(x)).collect(), margin: self.margin }
    }

    /// Where two of the same length first differ, counted from the start of the slice, and their words there.
    pub fn difference(&self, other: &Lent<X>) -> Option<(isize, X, X)>
    where
        X: PartialEq,
    {
        let at = self.all.iter().zip(&other.all).position(|(a, b)| a != b)?;
        Some((at as isize - self.margin as isize, self.all[at], other.all[at]))
    }
}
