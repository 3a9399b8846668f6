//! A queue with a fixed number of places, for the line and the pool.

/// Items in order from place 0, `count` of them. Places not used hold the
/// item that is all 0, which is `T::default()`.
#[derive(Clone, Copy, PartialEq, Eq, Debug)]
pub struct Queue<T, const ROOM: usize> {
    pub(crate) places: [T; ROOM],
    pub(crate) count: usize,
}

impl<T: Copy + Default, const ROOM: usize> Queue<T, ROOM> {
    /// A queue with no place used.
    pub fn empty() -> Self {
        Queue {
            places: [T::default(); ROOM],
            count: 0,
        }
    }

    /// How many places are used.
    pub fn count(&self) -> usize {
        self.count
    }

    /// Whether every place is used.
    pub fn is_full(&self) -> bool {
        self.count >= ROOM
    }

    /// The items in use, the head first.
    pub fn items(&self) -> &[T] {
        self.places.get(..self.count).unwrap_or(&self.places)
    }

    /// The places that are not used.
    pub fn unused(&self) -> &[T] {
        self.places.get(self.count..).unwrap_or(&[])
    }

    /// The item at a position, if that position is used.
    pub fn get(&self, position: usize) -> Option<T> {
        self.items().get(position).copied()
    }

    /// Puts an item at the tail. A full queue stays as it is: callers that
    /// must say no to this test `is_full` first.
    pub fn push(&mut self, item: T) {
        if let Some(place) = self.places.get_mut(self.count) {
            *place = item;
            self.count += 1;
        }
    }

    /// Takes out the item at a position; later ones close up.
    pub fn remove(&mut self, position: usize) {
        if position < self.count {
            self.places.copy_within(position + 1..self.count, position);
            self.count -= 1;
            self.places[self.count] = T::default();
        }
    }

    /// Takes out every item that is not to be kept; the rest close up.
    pub fn retain(&mut self, keep: impl Fn(&T) -> bool) {
        let mut kept = 0;
        for position in 0..self.count {
            let item = self.places[position];
            if keep(&item) {
                self.places[kept] = item;
                kept += 1;
            }
        }
        self.places[kept..self.count].fill(T::default());
        self.count = kept;
    }
}
