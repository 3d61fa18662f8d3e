//! Columns of views: strings and binary values of up to 12 bytes in the view, longer ones in data buffers.

use crate::bits::Validity;
use crate::column::Column;
use crate::error::{checked, status, Error};
use crate::kind::Kind;
use crate::memory::{append, collect, copy, try_collect, zeroed};
use crate::raw::{self, Handle, RawBytesRef};

/// A view of the Arrow format, as four little-endian words: `sel_view`.
///
/// With a length of up to 12 the bytes are in the other three words, followed by zeros. Else the first four bytes are in
/// `prefix`, and all of them at `offset` of the data buffer with the number `buffer`.
#[repr(C)]
#[derive(Clone, Copy, Debug, Default, PartialEq, Eq, Hash)]
pub struct View {
    /// The number of bytes.
    pub length: u32,
    /// The first four bytes.
    pub prefix: u32,
    /// The number of the data buffer, or the next four bytes.
    pub buffer: u32,
    /// The offset in the data buffer, or the last four bytes.
    pub offset: u32,
}

/// The most bytes that lie in the view itself.
const INLINE: usize = 12;

/// The most bytes of a data buffer with several values: the offsets of Arrow views are signed 32-bit integers.
const MOST_BUFFER_BYTES: usize = 0x7fff_ffff;

/// Views under construction and their data buffers.
struct ViewBuilder {
    views: Vec<View>,
    buffers: Vec<Vec<u8>>,
    most_buffer_bytes: usize,
}

impl ViewBuilder {
    fn new(most_buffer_bytes: usize) -> ViewBuilder {
        ViewBuilder { views: Vec::new(), buffers: Vec::new(), most_buffer_bytes }
    }

    /// Appends a value: up to 12 bytes go into the view, more into the last data buffer or a new one.
    fn push(&mut self, value: &[u8]) -> Result<(), Error> {
        let length = u32::try_from(value.len()).map_err(|_| Error::of(status::VIEW_LIMIT))?;
        let mut space = [0; INLINE];
        space.iter_mut().zip(value).for_each(|(to, from)| *to = *from);
        let [a, b, c, d, e, f, g, h, i, j, k, l] = space;
        let prefix = u32::from_le_bytes([a, b, c, d]);
        let (buffer, offset) = match value.len() <= INLINE {
            true => (u32::from_le_bytes([e, f, g, h]), u32::from_le_bytes([i, j, k, l])),
            false => self.store(value)?,
        };
        self.views.try_reserve(1).map_err(|_| Error::OutOfMemory)?;
        self.views.push(View { length, prefix, buffer, offset });
        Ok(())
    }

    /// Copies a value into a data buffer; returns the number of the buffer and the offset in it.
    fn store(&mut self, value: &[u8]) -> Result<(u32, u32), Error> {
        let room = self.buffers.last().map_or(0, |last| self.most_buffer_bytes.saturating_sub(last.len()));
        if self.buffers.is_empty() || room < value.len() {
            self.buffers.try_reserve(1).map_err(|_| Error::OutOfMemory)?;
            self.buffers.push(Vec::new());
        }
        let number = self.buffers.len().saturating_sub(1);
        let Some(last) = self.buffers.last_mut() else { return Err(Error::OutOfMemory) };
        let (Ok(number), Ok(offset)) = (u32::try_from(number), u32::try_from(last.len())) else {
            return Err(Error::of(status::VIEW_LIMIT));
        };
        append(last, value)?;
        Ok((number, offset))
    }
}

/// Returns whether the bytes of a view lie in it.
fn is_inline(view: &View) -> bool {
    usize::try_from(view.length).is_ok_and(|len| len <= INLINE)
}

/// Returns the bytes of a view, which lie in it or in a data buffer.
fn bytes_of(view: &View, buffers: &[Vec<u8>]) -> Result<Vec<u8>, Error> {
    let out_of_range = |_| Error::of(status::VIEW_RANGE);
    let len = usize::try_from(view.length).map_err(out_of_range)?;
    if is_inline(view) {
        let words = [view.prefix, view.buffer, view.offset];
        return collect(words.iter().flat_map(|word| word.to_le_bytes()).take(len));
    }
    let buffer = usize::try_from(view.buffer).map_err(out_of_range)?;
    let offset = usize::try_from(view.offset).map_err(out_of_range)?;
    let bytes = buffers.get(buffer).and_then(|bytes| bytes.get(offset..)).and_then(|bytes| bytes.get(..len));
    copy(bytes.ok_or(Error::of(status::VIEW_RANGE))?)
}

fn text_of(bytes: Vec<u8>) -> Result<String, Error> {
    String::from_utf8(bytes).map_err(|_| Error::of(status::INVALID_UTF8))
}

type Maker =
    unsafe extern "C" fn(*const View, usize, *const RawBytesRef, usize, *const u8, usize, bool, *mut Handle) -> u32;

fn make_by(call: Maker, views: &[View], buffers: &[RawBytesRef], validity: &Validity) -> Result<Column, Error> {
    Column::made_with(validity, |bits, bits_len, has_bits, out| {
        let (buffers, count) = (buffers.as_ptr(), buffers.len());
        // SAFETY: all slices are valid for their lengths, and the handle is empty.
        unsafe { call(views.as_ptr(), views.len(), buffers, count, bits, bits_len, has_bits, out) }
    })
}

fn make_of_values<'a>(
    call: Maker,
    values: impl Iterator<Item = &'a [u8]>,
    validity: &Validity,
) -> Result<Column, Error> {
    let mut builder = ViewBuilder::new(MOST_BUFFER_BYTES);
    for value in values {
        builder.push(value)?;
    }
    let buffers = collect(builder.buffers.iter().map(|buffer| RawBytesRef::of(buffer)))?;
    make_by(call, &builder.views, &buffers, validity)
}

impl Column {
    /// Makes a string column, null where a row is `None`; [`from_values`](Column::from_values) takes strings without
    /// nulls.
    ///
    /// # Errors
    /// [`Error::Malformed`] for more than 4,294,967,295 rows; [`Error::Limit`] for a string of more bytes than that;
    /// [`Error::OutOfMemory`].
    ///
    /// ```
    /// # use sel::{Column, Error};
    /// # fn main() -> Result<(), Error> {
    /// let names = Column::from_texts(&[Some("Ada"), None])?;
    /// assert_eq!(names.to_texts()?, [Some("Ada".to_string()), None]);
    /// # Ok(())
    /// # }
    /// ```
    pub fn from_texts(rows: &[Option<&str>]) -> Result<Column, Error> {
        Column::from_options(rows)
    }

    pub(crate) fn made_of_strings<'a>(
        values: impl Iterator<Item = &'a [u8]>,
        validity: &Validity,
    ) -> Result<Column, Error> {
        make_of_values(raw::sel_string_view_new, values, validity)
    }

    /// Makes a column of binary views, null where a row is `None`.
    ///
    /// # Errors
    /// As [`from_texts`](Column::from_texts).
    ///
    /// ```
    /// # use sel::{Column, Error, Kind};
    /// # fn main() -> Result<(), Error> {
    /// let column = Column::from_byte_views(&[Some(b"a"), None])?;
    /// assert_eq!((column.kind(), column.to_text()?), (Kind::BinaryView, r#"[h"61",null]"#.to_string()));
    /// # Ok(())
    /// # }
    /// ```
    pub fn from_byte_views(rows: &[Option<&[u8]>]) -> Result<Column, Error> {
        let values = rows.iter().map(|row| row.unwrap_or_default());
        make_of_values(raw::sel_binary_view_new, values, &Validity::of_options(rows)?)
    }

    /// Makes a column of binary views into data buffers; row `i` is null where `validity[i]` is false.
    ///
    /// # Errors
    /// [`Error::Malformed`] if a view, in a null slot too, refers to bytes that its buffers do not have, or its prefix is
    /// not that of the bytes, or the validity has not one item for each row; [`Error::OutOfMemory`].
    ///
    /// ```
    /// # use sel::{Column, Error, View};
    /// # fn main() -> Result<(), Error> {
    /// let view = View { length: 13, prefix: u32::from_le_bytes(*b"hirt"), buffer: 0, offset: 1 };
    /// let column = Column::new_binary_view(&[view, view], &[b"thirteen bytes"], Some(&[true, false]))?;
    /// assert_eq!(column.to_bytes()?, [Some(b"hirteen bytes".to_vec()), None]);
    /// let wrong = View { offset: 2, ..view };
    /// assert_eq!(Column::new_binary_view(&[wrong], &[b"thirteen bytes"], None).err(), Some(Error::Malformed(26)));
    /// # Ok(())
    /// # }
    /// ```
    pub fn new_binary_view(views: &[View], buffers: &[&[u8]], validity: Option<&[bool]>) -> Result<Column, Error> {
        let buffers = collect(buffers.iter().map(|buffer| RawBytesRef::of(buffer)))?;
        make_by(raw::sel_binary_view_new, views, &buffers, &Validity::new(validity, views.len())?)
    }

    /// Makes a string column of views into data buffers; row `i` is null where `validity[i]` is false.
    ///
    /// # Errors
    /// As [`new_binary_view`](Column::new_binary_view), and [`Error::Malformed`] if a valid row is not UTF-8.
    ///
    /// ```
    /// # use sel::{Column, Error, View};
    /// # fn main() -> Result<(), Error> {
    /// let view = View { length: 2, prefix: u32::from_le_bytes([0xc3, 0xa9, 0, 0]), buffer: 0, offset: 0 };
    /// assert_eq!(Column::new_string_view(&[view], &[], None)?.to_texts()?, [Some("é".to_string())]);
    /// let half = View { length: 1, ..view };
    /// assert_eq!(Column::new_string_view(&[half], &[], None).err(), Some(Error::Malformed(28)));
    /// assert_eq!(Column::new_string_view(&[half], &[], Some(&[false]))?.to_texts()?, [None]);
    /// # Ok(())
    /// # }
    /// ```
    pub fn new_string_view(views: &[View], buffers: &[&[u8]], validity: Option<&[bool]>) -> Result<Column, Error> {
        let buffers = collect(buffers.iter().map(|buffer| RawBytesRef::of(buffer)))?;
        make_by(raw::sel_string_view_new, views, &buffers, &Validity::new(validity, views.len())?)
    }

    /// Returns the rows of a string column, `None` where they are null.
    ///
    /// Each data buffer with a string of these rows is copied once as a whole.
    ///
    /// # Errors
    /// [`Error::WrongArgument`] if the column has another kind; [`Error::OutOfMemory`].
    ///
    /// ```
    /// # use sel::{Column, Error};
    /// # fn main() -> Result<(), Error> {
    /// assert_eq!(Column::parse("utf8", r#"["Ada",null]"#)?.to_texts()?, [Some("Ada".to_string()), None]);
    /// # Ok(())
    /// # }
    /// ```
    pub fn to_texts(&self) -> Result<Vec<Option<String>>, Error> {
        self.expect_kind(Kind::StringView)?;
        let rows = self.view_bytes()?.into_iter();
        try_collect(rows.map(|bytes| bytes.map(text_of).transpose()))
    }

    /// Returns the rows of a column of views.
    pub(crate) fn view_bytes(&self) -> Result<Vec<Option<Vec<u8>>>, Error> {
        let (views, valid) = (self.views()?, self.valid()?);
        let buffers = self.buffers_of(&views, &valid)?;
        let rows = views.iter().zip(valid);
        try_collect(rows.map(|(view, valid)| valid.then(|| bytes_of(view, &buffers)).transpose()))
    }

    /// Returns the data buffers; those that no valid view refers to are empty.
    fn buffers_of(&self, views: &[View], valid: &[bool]) -> Result<Vec<Vec<u8>>, Error> {
        let mut is_used = zeroed::<bool>(self.buffer_count()?)?;
        for view in views.iter().zip(valid).filter_map(|(view, valid)| valid.then_some(view)) {
            let buffer = if is_inline(view) { None } else { usize::try_from(view.buffer).ok() };
            if let Some(is_used) = buffer.and_then(|buffer| is_used.get_mut(buffer)) {
                *is_used = true;
            }
        }
        let buffers = is_used.into_iter().enumerate();
        try_collect(buffers.map(|(i, is_used)| if is_used { self.buffer(i) } else { Ok(Vec::new()) }))
    }

    /// Returns the views of a string column or of binary views; those in null slots are whatever the column holds there.
    ///
    /// # Errors
    /// [`Error::WrongArgument`] if the column has another kind; [`Error::OutOfMemory`].
    ///
    /// ```
    /// # use sel::{Column, Error};
    /// # fn main() -> Result<(), Error> {
    /// let texts = Column::from_values(&["Ada", "a text of 21 bytes..."])?;
    /// let lengths: Vec<u32> = texts.views()?.iter().map(|view| view.length).collect();
    /// assert_eq!(lengths, [3, 21]);
    /// assert_eq!(texts.buffers()?, [b"a text of 21 bytes..."]);
    /// # Ok(())
    /// # }
    /// ```
    pub fn views(&self) -> Result<Vec<View>, Error> {
        if self.kind() != Kind::BinaryView {
            self.expect_kind(Kind::StringView)?;
        }
        let mut views = zeroed::<View>(self.len())?;
        // SAFETY: the views are valid for their length, and the handle is owned by the column.
        checked(unsafe { raw::sel_views(self.at(), views.as_mut_ptr(), views.len()) })?;
        Ok(views)
    }

    /// Returns copies of the data buffers that the [`views`](Column::views) refer to. A slice has all buffers of its column.
    ///
    /// # Errors
    /// [`Error::WrongArgument`] if the column has another kind; [`Error::OutOfMemory`].
    ///
    /// ```
    /// # use sel::{Column, Error};
    /// # fn main() -> Result<(), Error> {
    /// assert!(Column::from_values(&["Ada"])?.buffers()?.is_empty());
    /// # Ok(())
    /// # }
    /// ```
    pub fn buffers(&self) -> Result<Vec<Vec<u8>>, Error> {
        try_collect((0..self.buffer_count()?).map(|i| self.buffer(i)))
    }

    fn buffer_count(&self) -> Result<usize, Error> {
        let mut count = 0;
        // SAFETY: the handle is owned by the column.
        checked(unsafe { raw::sel_buffer_count(self.at(), &mut count) })?;
        Ok(count)
    }

    fn buffer(&self, i: usize) -> Result<Vec<u8>, Error> {
        let mut len = 0;
        // SAFETY: the handle is owned by the column.
        checked(unsafe { raw::sel_buffer_len(self.at(), i, &mut len) })?;
        let mut bytes = zeroed::<u8>(len)?;
        // SAFETY: the bytes are valid for their length, and the handle is owned by the column.
        checked(unsafe { raw::sel_buffer(self.at(), i, bytes.as_mut_ptr(), bytes.len()) })?;
        Ok(bytes)
    }
}

#[cfg(test)]
mod tests {
    use super::*;

    fn inline(length: u32, bytes: [u8; 12]) -> View {
        let [a, b, c, d, e, f, g, h, i, j, k, l] = bytes;
        let word = u32::from_le_bytes;
        View { length, prefix: word([a, b, c, d]), buffer: word([e, f, g, h]), offset: word([i, j, k, l]) }
    }

    #[test]
    fn null_slots_with_bytes_that_are_not_utf8_are_read_as_nulls() -> Result<(), Error> {
        let wrong = inline(3, [0xff; 12]);
        let long = View { length: 13, prefix: u32::from_le_bytes([0xc3; 4]), buffer: 0, offset: 1 };
        let padded = inline(2, *b"ab\xff\xff\xff\xff\xff\xff\xff\xff\xff\xff");
        let validity = Some(&[false, false, true][..]);
        let column = Column::new_string_view(&[wrong, long, padded], &[&[0xc3; 16]], validity)?;
        assert_eq!(column.to_texts()?, [None, None, Some("ab".to_string())]);
        assert_eq!(column.sliced(1, 2)?.to_texts()?, [None, Some("ab".to_string())]);
        assert_eq!(Column::new_string_view(&[wrong], &[], None).err(), Some(Error::of(status::INVALID_UTF8)));
        Ok(())
    }

    #[test]
    fn a_view_outside_of_its_buffers_is_an_error() {
        let buffers = [b"twenty bytes of text".to_vec()];
        let view = |length, buffer, offset| View { length, prefix: 0, buffer, offset };
        for wrong in
            [view(21, 0, 0), view(20, 0, 1), view(13, 1, 0), view(u32::MAX, 0, u32::MAX), view(13, u32::MAX, 0)]
        {
            assert_eq!(bytes_of(&wrong, &buffers), Err(Error::of(status::VIEW_RANGE)));
        }
        assert_eq!(bytes_of(&view(13, 0, 7), &buffers), Ok(b"bytes of text".to_vec()));
    }

    #[test]
    fn a_full_data_buffer_is_followed_by_a_new_one() -> Result<(), Error> {
        let values: [&[u8]; 5] = [b"thirteen byte", b"short", b"another value", b"twelve bytes", b"the third of 13"];
        let mut builder = ViewBuilder::new(30);
        values.iter().try_for_each(|value| builder.push(value))?;
        let lengths: Vec<usize> = builder.buffers.iter().map(Vec::len).collect();
        assert_eq!(lengths, [26, 15]);
        for (view, value) in builder.views.iter().zip(values) {
            assert_eq!(bytes_of(view, &builder.buffers)?, value);
        }
        Ok(())
    }

    #[test]
    fn a_value_longer_than_a_data_buffer_has_one_of_its_own() -> Result<(), Error> {
        let mut builder = ViewBuilder::new(10);
        for value in ["longer than ten bytes", "and this one is as well"] {
            builder.push(value.as_bytes())?;
        }
        let at: Vec<(u32, u32)> = builder.views.iter().map(|view| (view.buffer, view.offset)).collect();
        assert_eq!(at, [(0, 0), (1, 0)]);
        Ok(())
    }
}
