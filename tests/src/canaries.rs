//! Copies of buffers between canaries.

const CANARY: u8 = 0xC5;
const GUARD: usize = 64;

/// A copy of a buffer of bytes or words between canaries.
pub struct Guarded<T> {
    all: Vec<T>,
    start: usize,
    length: usize,
}

impl<T: Copy + PartialEq + From<u8>> Guarded<T> {
    /// The start differs from an aligned place by `shift`.
    pub fn new(content: &[T], shift: usize) -> Guarded<T> {
        let start = GUARD + shift;
        let mut all = Vec::with_capacity(start + content.len() + GUARD);
        all.resize(start, T::from(CANARY));
        all.extend_from_slice(content);
        all.resize(start + content.len() + GUARD, T::from(CANARY));
        Guarded { all, start, length: content.len() }
    }

    pub fn pointer(&self) -> *const T {
        self.content().as_ptr()
    }

    pub fn pointer_mut(&mut self) -> *mut T {
        self.content_mut().as_mut_ptr()
    }

    pub fn content_mut(&mut self) -> &mut [T] {
        &mut self.all[self.start..self.start + self.length]
    }

    fn content(&self) -> &[T] {
        &self.all[self.start..self.start + self.length]
    }

    pub fn guarded_content(&self) -> &[T] {
        let mut outside = self.all[..self.start].iter().chain(&self.all[self.start + self.length..]);
        assert!(outside.all(|canary| *canary == T::from(CANARY)), "a byte outside of a buffer was changed");
        self.content()
    }

    pub fn give_back(&self, content: &mut [T]) {
        content.copy_from_slice(self.guarded_content());
    }

    pub fn must_equal(&self, content: &[T]) {
        assert!(self.guarded_content() == content, "a const buffer was changed");
    }
}
