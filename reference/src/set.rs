//! Sets of objects.

/// A set of objects: object d is in it if bit d is 1.
pub type Set = u64;

/// The set that holds one object.
pub fn only(object: usize) -> Set {
    1 << object
}
