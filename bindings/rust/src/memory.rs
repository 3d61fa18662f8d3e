//! Vectors of a length that a column or a caller gives, and boxes: a failed allocation is an error and does not abort.

use crate::error::Error;

/// Returns `len` default values.
pub(crate) fn zeroed<T: Clone + Default>(len: usize) -> Result<Vec<T>, Error> {
    let mut items = Vec::new();
    items.try_reserve_exact(len).map_err(|_| Error::OutOfMemory)?;
    items.resize(len, T::default());
    Ok(items)
}

/// Returns the items of an iterator.
pub(crate) fn collect<T>(items: impl IntoIterator<Item = T>) -> Result<Vec<T>, Error> {
    try_collect(items.into_iter().map(Ok))
}

/// Returns the items of an iterator, or its first error.
pub(crate) fn try_collect<T>(items: impl IntoIterator<Item = Result<T, Error>>) -> Result<Vec<T>, Error> {
    let items = items.into_iter();
    let mut collected = Vec::new();
    collected.try_reserve_exact(items.size_hint().0).map_err(|_| Error::OutOfMemory)?;
    for item in items {
        if collected.len() == collected.capacity() {
            collected.try_reserve(1).map_err(|_| Error::OutOfMemory)?;
        }
        collected.push(item?);
    }
    Ok(collected)
}

/// Returns a value in a box.
pub(crate) fn boxed<T>(value: T) -> Result<Box<T>, Error> {
    let mut items = Vec::new();
    items.try_reserve_exact(1).map_err(|_| Error::OutOfMemory)?;
    items.push(value);
    // the capacity is the length, so that the slice takes the vector's memory and does not allocate
    let slice = Box::into_raw(items.into_boxed_slice());
    // SAFETY: the memory is that of a box of one value, since a slice of one value has its layout. It has no other owner.
    Ok(unsafe { Box::from_raw(slice.cast::<T>()) })
}

/// Returns a copy of bytes.
pub(crate) fn copy(bytes: &[u8]) -> Result<Vec<u8>, Error> {
    let mut copied = Vec::new();
    append(&mut copied, bytes)?;
    Ok(copied)
}

/// Appends bytes to others.
pub(crate) fn append(all: &mut Vec<u8>, bytes: &[u8]) -> Result<(), Error> {
    all.try_reserve(bytes.len()).map_err(|_| Error::OutOfMemory)?;
    all.extend_from_slice(bytes);
    Ok(())
}

#[cfg(test)]
mod tests {
    use super::*;

    #[test]
    fn lengths_past_the_address_space_are_errors() {
        assert_eq!(zeroed::<u64>(usize::MAX), Err(Error::OutOfMemory));
        assert_eq!(zeroed::<u8>(usize::MAX), Err(Error::OutOfMemory));
        assert_eq!(collect(std::iter::repeat(0u8)), Err(Error::OutOfMemory));
    }

    #[test]
    fn iterators_without_a_length_are_collected() {
        assert_eq!(collect((0..1000u32).filter(|number| number % 2 == 0)).map(|even| even.len()), Ok(500));
        assert_eq!(try_collect([Ok(1), Err(Error::Limit(8)), Ok(2)]), Err(Error::Limit(8)));
    }
}
