//! Memory that is lent to the library: what is lent stands between guards, and what was written beside it shows.

const GUARD: usize = 32;

/// A lent row of bytes or numbers with guards before and behind it.
pub struct Lent<T> {
    room: Vec<T>,
    before: Vec<T>,
}

impl<T: Copy + PartialEq> Lent<T> {
    pub fn new(content: &[T], guard: T) -> Self {
        let mut room = vec![guard; GUARD];
        room.extend_from_slice(content);
        room.extend(vec![guard; GUARD]);
        let before = room.clone();
        Lent { room, before }
    }

    pub fn len(&self) -> usize {
        self.room.len() - 2 * GUARD
    }

    pub fn is_empty(&self) -> bool {
        self.len() == 0
    }

    pub fn pointer(&self) -> *const T {
        self.room[GUARD..].as_ptr()
    }

    pub fn pointer_mut(&mut self) -> *mut T {
        self.room[GUARD..].as_mut_ptr()
    }

    /// What stands in the lent part now.
    pub fn content(&self) -> &[T] {
        &self.room[GUARD..self.room.len() - GUARD]
    }

    /// Whether nothing at all was changed.
    pub fn untouched(&self) -> bool {
        self.room == self.before
    }

    /// Whether the guards stand as they were.
    pub fn guarded(&self) -> bool {
        let end = self.room.len() - GUARD;
        self.room[..GUARD] == self.before[..GUARD] && self.room[end..] == self.before[end..]
    }
}
