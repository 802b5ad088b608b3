//! Lists lent from the middle of longer ones, so that what is written beside them shows.

/// A part with others' values before and after it.
#[derive(Clone, Debug)]
pub struct Fenced<T> {
    whole: Vec<T>,
    from: usize,
    to: usize,
    fence: Vec<T>,
}

const WIDTH: usize = 24;

impl<T: Copy + PartialEq> Fenced<T> {
    /// A copy of the part, with `WIDTH` copies of a value on either side.
    pub fn new(part: &[T], value: T) -> Self {
        let fence = vec![value; WIDTH];
        let whole = [&fence[..], part, &fence[..]].concat();
        Fenced { whole, from: WIDTH, to: WIDTH + part.len(), fence }
    }

    /// The part, to be lent.
    pub fn part(&mut self) -> &mut [T] {
        &mut self.whole[self.from..self.to]
    }

    /// What the part holds now, or none if anything beside it has changed.
    pub fn now(&self) -> Option<&[T]> {
        let kept = self.whole[..self.from] == self.fence && self.whole[self.to..] == self.fence;
        if kept {
            Some(&self.whole[self.from..self.to])
        } else {
            None
        }
    }
}
