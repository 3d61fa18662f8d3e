//! Booleans as packed bits, least significant bit first, and the validity arguments of makers.

use crate::error::Error;
use crate::memory::zeroed;

/// Returns the booleans as packed bits.
pub(crate) fn pack(flags: impl ExactSizeIterator<Item = bool>) -> Result<Vec<u8>, Error> {
    let mut bits = zeroed::<u8>(flags.len().div_ceil(8))?;
    for (i, _) in flags.enumerate().filter(|(_, flag)| *flag) {
        if let Some(byte) = bits.get_mut(i / 8) {
            *byte |= 1 << (i % 8);
        }
    }
    Ok(bits)
}

/// Returns bit `i`, or false where there are fewer bits.
pub(crate) fn bit_at(bits: &[u8], i: usize) -> bool {
    bits.get(i / 8).is_some_and(|byte| byte >> (i % 8) & 1 == 1)
}

/// The validity of a column that is made: packed bits, or none where every row is valid.
// Public only for the signatures of sealed traits; the module is private.
pub struct Validity {
    pub(crate) bits: Vec<u8>,
    pub(crate) is_present: bool,
    /// Whether there is not one item for each row, although the library may find enough bits.
    pub(crate) has_wrong_length: bool,
}

impl Validity {
    /// The validity of a column without nulls.
    pub(crate) const ALL: Validity = Validity { bits: Vec::new(), is_present: false, has_wrong_length: false };

    /// Returns the validity of `rows` rows; one of a wrong length has no bits, which the library reports in its order.
    pub(crate) fn new(valid: Option<&[bool]>, rows: usize) -> Result<Validity, Error> {
        match valid {
            None => Ok(Validity::ALL),
            Some(valid) if valid.len() == rows => Validity::packed(valid.iter().copied()),
            Some(_) => Ok(Validity { bits: Vec::new(), is_present: true, has_wrong_length: true }),
        }
    }

    /// Returns the validity of rows that are null where they are `None`.
    pub(crate) fn of_options<T>(rows: &[Option<T>]) -> Result<Validity, Error> {
        Validity::packed(rows.iter().map(Option::is_some))
    }

    fn packed(flags: impl ExactSizeIterator<Item = bool>) -> Result<Validity, Error> {
        Ok(Validity { bits: pack(flags)?, is_present: true, has_wrong_length: false })
    }
}

#[cfg(test)]
mod tests {
    use super::*;

    #[test]
    fn bits_are_packed_least_significant_first() {
        let flags = [true, false, false, true, false, false, false, false, false, true];
        assert_eq!(pack(flags.into_iter()), Ok(vec![0b0000_1001, 0b0000_0010]));
        assert_eq!(pack([].into_iter()), Ok(vec![]));
    }

    #[test]
    fn bits_past_the_end_are_false() {
        assert!(bit_at(&[0x80], 7));
        assert!(!bit_at(&[0xff], 8));
        assert!(!bit_at(&[], usize::MAX));
    }
}
