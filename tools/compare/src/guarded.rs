//! Slices lent with canaries on both sides.

use oracle::draw::Draw;

const CANARIES: usize = 61;

pub struct Guarded<T> {
    all: Vec<T>,
    before: Vec<T>,
    len: usize,
}

impl<T: Copy + PartialEq> Guarded<T> {
    /// The content between canaries that differ from one another.
    pub fn new(content: &[T], draw: &mut Draw, canary: fn(u64) -> T) -> Guarded<T> {
        let mut guard = || (0..CANARIES).map(|_| canary(draw.number())).collect::<Vec<T>>();
        let all = [&guard(), content, &guard()].concat();
        Guarded { before: all.clone(), all, len: content.len() }
    }

    pub fn pointer(&mut self) -> *mut T {
        self.all[CANARIES..].as_mut_ptr()
    }

    pub fn len(&self) -> usize {
        self.len
    }

    pub fn content(&self) -> &[T] {
        &self.all[CANARIES..CANARIES + self.len]
    }

    /// Whether everything but the content's first elements is as it was lent.
    pub fn is_kept_behind(&self, changed: usize) -> bool {
        let behind = CANARIES + changed.min(self.len);
        self.all[..CANARIES] == self.before[..CANARIES] && self.all[behind..] == self.before[behind..]
    }
}
