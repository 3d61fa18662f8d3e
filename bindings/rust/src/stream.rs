//! Streams of record batches by the Arrow C stream interface: data larger than memory passes batch by batch.

use crate::arrow::{owned_text, ArrowArrayStream};
use crate::arrow_type::ArrowType;
use crate::column::Column;
use crate::error::{checked, status, Error};
use crate::handle::OwnedHandle;
use crate::memory::boxed;
use crate::raw::{self, Handle, StreamHandle, TypeHandle};
use std::ffi::c_void;
use std::iter::FusedIterator;
use std::panic::{catch_unwind, AssertUnwindSafe};
use std::{mem, ptr};

/// A stream that is read: an iterator over its batches, columns with their types.
///
/// After an error the next call asks the producer again, or imports the same batch again if its import failed. So an error
/// that does not pass is returned by each further call: a loop that ignores errors, as by [`Iterator::flatten`], may not end.
/// After the last batch the producer is not asked again.
///
/// ```
/// # use sel::{export_stream, ArrowType, Column, Error, StreamReader};
/// # fn main() -> Result<(), Error> {
/// let date = ArrowType::new("tdD", &[])?;
/// let batches = (0..3).map(|day| Ok((Column::from_values(&[day, day + 1])?, None)));
/// let reader = StreamReader::open(export_stream(&date, batches)?)?;
/// assert_eq!(reader.arrow_type()?, date);
/// let texts: Result<Vec<String>, Error> = reader.map(|batch| Ok(batch?.0.to_string())).collect();
/// assert_eq!(texts?, ["[0,1]", "[1,2]", "[2,3]"]);
/// # Ok(())
/// # }
/// ```
#[derive(Debug)]
#[must_use = "a stream is released when it is dropped"]
pub struct StreamReader {
    handle: OwnedStream,
    has_ended: bool,
}

#[derive(Debug)]
struct OwnedStream {
    at: *mut c_void,
}

impl OwnedStream {
    fn with<T>(&mut self, call: impl FnOnce(*mut StreamHandle) -> T) -> T {
        let mut handle = StreamHandle { at: self.at };
        let found = call(&mut handle);
        self.at = handle.at;
        found
    }
}

impl Drop for OwnedStream {
    fn drop(&mut self) {
        // SAFETY: the handle has a stream or none, and is not used again.
        self.with(|handle| unsafe { raw::sel_stream_free(handle) });
    }
}

impl StreamReader {
    /// Takes a stream of a producer and gets its schema. On an error the stream is dropped, and the producer's message with
    /// it: [`open_from`](StreamReader::open_from) keeps both.
    ///
    /// # Errors
    /// [`Error::Arrow`] if the stream is released, the producer reports an error, or the schema is unsupported;
    /// [`Error::Limit`] for more than 128 levels; [`Error::OutOfMemory`].
    pub fn open(mut stream: ArrowArrayStream) -> Result<StreamReader, Error> {
        StreamReader::open_from(&mut stream)
    }

    /// Moves a stream of a producer out of its structure, which is left released, and gets its schema. On an error the
    /// stream stays in the structure, and [`ArrowArrayStream::message`] returns the producer's message.
    ///
    /// ```
    /// # use sel::{export_stream, ArrowType, Error, StreamReader};
    /// # fn main() -> Result<(), Error> {
    /// let mut stream = export_stream(&ArrowType::new("tdD", &[])?, std::iter::empty())?;
    /// match StreamReader::open_from(&mut stream) {
    ///     Ok(reader) => assert_eq!((stream.is_released(), reader.count()), (true, 0)),
    ///     Err(error) => eprintln!("{error}: {}", stream.message().unwrap_or_default()),
    /// }
    /// # Ok(())
    /// # }
    /// ```
    ///
    /// # Errors
    /// As [`open`](StreamReader::open).
    pub fn open_from(stream: &mut ArrowArrayStream) -> Result<StreamReader, Error> {
        let mut handle = OwnedStream { at: ptr::null_mut() };
        // SAFETY: the stream is valid or released, and the handle is empty.
        checked(handle.with(|out| unsafe { raw::sel_stream_open(stream, out) }))?;
        Ok(StreamReader { handle, has_ended: false })
    }

    /// Returns the type of the batches, without the values of dictionaries.
    ///
    /// # Errors
    /// [`Error::OutOfMemory`].
    pub fn arrow_type(&self) -> Result<ArrowType, Error> {
        let handle = StreamHandle { at: self.handle.at };
        // SAFETY: the handle is valid, and is only read.
        ArrowType::made(|out| unsafe { raw::sel_stream_type(&handle, out) })
    }

    /// Returns the producer's message if its last call was an error; else, or if it has no message, `None`.
    pub fn message(&mut self) -> Option<String> {
        // SAFETY: the handle is valid, and the text lives up to the next call.
        self.handle.with(|handle| unsafe { owned_text(raw::sel_stream_message(handle)) })
    }

    fn next_batch(&mut self) -> Result<Option<(Column, ArrowType)>, Error> {
        let (mut column, mut of_type) = (OwnedHandle::empty(), ArrowType::empty());
        // SAFETY: the handle is valid, and both results are empty.
        checked(self.handle.with(|handle| unsafe { raw::sel_stream_next(handle, column.at_mut(), of_type.at_mut()) }))?;
        // SAFETY: the handle is valid, and is only read.
        if unsafe { (*column.at()).at.is_null() } {
            return Ok(None);
        }
        Ok(Some((Column::of(column)?, of_type)))
    }
}

impl Iterator for StreamReader {
    type Item = Result<(Column, ArrowType), Error>;

    fn next(&mut self) -> Option<Self::Item> {
        if self.has_ended {
            return None;
        }
        let next = self.next_batch().transpose();
        self.has_ended = next.is_none();
        next
    }
}

impl FusedIterator for StreamReader {}

/// A batch of a stream that is written, and its type; without one it has that of the stream.
///
/// The consumer gets the text of an error's status. An error of another library is `Err(Error::Arrow(73))`, the status of a
/// producer that reports an error.
pub type Batch = Result<(Column, Option<ArrowType>), Error>;

/// An iterator that is exported, and whether it may be called again.
struct Producer<I> {
    batches: I,
    state: State,
}

enum State {
    Open,
    Ended,
    Panicked,
}

impl<I: Iterator<Item = Batch>> Producer<I> {
    /// Returns the next batch, `None` after the last one, or the status of an error.
    fn next_batch(&mut self) -> Result<Option<(Column, Option<ArrowType>)>, u32> {
        match self.state {
            State::Open => {}
            State::Ended => return Ok(None),
            State::Panicked => return Err(status::ARROW_STREAM),
        }
        match caught(|| self.batches.next()) {
            Some(Some(Ok(batch))) => Ok(Some(batch)),
            Some(Some(Err(error))) => Err(status_of(error)),
            Some(None) => {
                self.state = State::Ended;
                Ok(None)
            }
            None => {
                self.state = State::Panicked;
                Err(status::ARROW_STREAM)
            }
        }
    }
}

/// Returns the status of an error. It is never that of success, which an error can have as its number: the stream would end.
fn status_of(error: Error) -> u32 {
    match error.status() {
        status::OK => status::ARROW_STREAM,
        other => other,
    }
}

/// Runs code of the iterator; returns `None` if it panics, since a panic must not pass through the consumer.
fn caught<T>(call: impl FnOnce() -> T) -> Option<T> {
    match catch_unwind(AssertUnwindSafe(call)) {
        Ok(found) => Some(found),
        Err(payload) => {
            // the drop of the payload may panic too; the payload of that panic is never dropped
            if let Err(second) = catch_unwind(AssertUnwindSafe(|| drop(payload))) {
                mem::forget(second);
            }
            None
        }
    }
}

unsafe extern "C" fn next_of<I: Iterator<Item = Batch>>(
    context: *mut c_void,
    out: *mut Handle,
    out_type: *mut TypeHandle,
) -> u32 {
    // SAFETY: the context is that of `export_stream` for this iterator, and the consumer makes one call at a time.
    let producer = unsafe { &mut *context.cast::<Producer<I>>() };
    let (column, of_type) = match producer.next_batch() {
        Ok(Some(batch)) => batch,
        Ok(None) => return status::OK,
        Err(status) => return status,
    };
    // SAFETY: both results are valid and empty handles.
    let shared = unsafe { raw::sel_share(column.at(), out) };
    match of_type {
        // SAFETY: the type is valid.
        Some(of_type) if shared == status::OK => unsafe { raw::sel_type_share(of_type.at(), out_type) },
        _ => shared,
    }
}

unsafe extern "C" fn free_of<I>(context: *mut c_void) {
    // SAFETY: the context is that of `export_stream` for this iterator, and this is called once.
    let producer = unsafe { Box::from_raw(context.cast::<Producer<I>>()) };
    caught(|| drop(producer));
}

/// Returns a stream that exports the batches of an iterator as the consumer asks for them. Each has the schema of the type.
///
/// The iterator is not called again once it has returned `None`. If it panics in [`next`](Iterator::next), it is not called
/// again either, and the stream reports an error at this call and at each further one. If it panics when it is dropped, the
/// panic is caught and not reported.
///
/// The iterator is called and dropped on the thread on which the consumer reads and releases the stream. Who moves the stream
/// to a consumer in another language must ensure that this is the same thread, unless the iterator is [`Send`].
///
/// # Errors
/// [`Error::OutOfMemory`].
pub fn export_stream(
    of_type: &ArrowType,
    batches: impl Iterator<Item = Batch> + 'static,
) -> Result<ArrowArrayStream, Error> {
    export_of(of_type, Producer { batches, state: State::Open })
}

fn export_of<I: Iterator<Item = Batch> + 'static>(
    of_type: &ArrowType,
    producer: Producer<I>,
) -> Result<ArrowArrayStream, Error> {
    let context = Box::into_raw(boxed(producer)?).cast::<c_void>();
    let mut stream = ArrowArrayStream::empty();
    // SAFETY: the type is valid, the stream is released, and the functions are those of this context.
    let found = unsafe { raw::sel_stream_export(of_type.at(), next_of::<I>, context, free_of::<I>, &mut stream) };
    if let Err(error) = checked(found) {
        // SAFETY: on an error the context is not freed.
        unsafe { free_of::<I>(context) };
        return Err(error);
    }
    Ok(stream)
}
