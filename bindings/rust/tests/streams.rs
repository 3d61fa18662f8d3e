//! A stream of another producer, whose first call fails, and iterators that are exported: ends, errors and panics.

use sel::{export_stream, ArrowArray, ArrowArrayStream, ArrowSchema, ArrowType, Batch, Column, Error, StreamReader};
use std::cell::Cell;
use std::ffi::{c_char, c_void, CStr};
use std::iter::from_fn;
use std::mem::{replace, size_of};
use std::ptr::addr_of_mut;
use std::rc::Rc;

/// The error code of a producer.
const EIO: i32 = 5;

/// A stream as another library declares it.
#[repr(C)]
struct ForeignStream {
    get_schema: Option<unsafe extern "C" fn(*mut ForeignStream, *mut ArrowSchema) -> i32>,
    get_next: Option<unsafe extern "C" fn(*mut ForeignStream, *mut ArrowArray) -> i32>,
    get_last_error: Option<unsafe extern "C" fn(*mut ForeignStream) -> *const c_char>,
    release: Option<unsafe extern "C" fn(*mut ForeignStream)>,
    private_data: *mut c_void,
}

/// What a stream owns until its release.
struct Producer {
    has_failed: bool,
    message: Option<&'static CStr>,
    releases: Rc<Cell<usize>>,
    has_ended: bool,
}

unsafe extern "C" fn get_schema(stream: *mut ForeignStream, out: *mut ArrowSchema) -> i32 {
    // SAFETY: the private data is that of `stream_of`.
    let producer = unsafe { &mut *(*stream).private_data.cast::<Producer>() };
    if !replace(&mut producer.has_failed, true) {
        return EIO;
    }
    let schema = ArrowType::new("i", &[]).and_then(|of_type| of_type.to_schema()).expect("a schema");
    // SAFETY: the consumer gives a structure to write to.
    unsafe { out.write(schema) };
    0
}

/// Ends the stream. A call after the end is an error.
unsafe extern "C" fn get_next(stream: *mut ForeignStream, out: *mut ArrowArray) -> i32 {
    // SAFETY: the private data is that of `stream_of`.
    let producer = unsafe { &mut *(*stream).private_data.cast::<Producer>() };
    if replace(&mut producer.has_ended, true) {
        return EIO;
    }
    // SAFETY: the consumer gives a structure to write to.
    unsafe { out.write(ArrowArray::empty()) };
    0
}

unsafe extern "C" fn get_last_error(stream: *mut ForeignStream) -> *const c_char {
    // SAFETY: the private data is that of `stream_of`.
    let producer = unsafe { &*(*stream).private_data.cast::<Producer>() };
    producer.message.map_or(std::ptr::null(), CStr::as_ptr)
}

unsafe extern "C" fn release(stream: *mut ForeignStream) {
    // SAFETY: the private data is that of `stream_of`, and this is called once.
    let producer = unsafe { Box::from_raw((*stream).private_data.cast::<Producer>()) };
    producer.releases.set(producer.releases.get() + 1);
    // SAFETY: the stream is valid.
    unsafe { (*stream).release = None };
}

/// Returns a stream without batches, whose schema can be got at the second attempt. Its release is counted.
fn stream_of(message: Option<&'static CStr>, releases: &Rc<Cell<usize>>) -> ArrowArrayStream {
    let producer = Box::new(Producer { has_failed: false, message, releases: releases.clone(), has_ended: false });
    let mut stream = ForeignStream {
        get_schema: Some(get_schema),
        get_next: Some(get_next),
        get_last_error: Some(get_last_error),
        release: Some(release),
        private_data: Box::into_raw(producer).cast(),
    };
    assert_eq!(size_of::<ArrowArrayStream>(), size_of::<ForeignStream>());
    // SAFETY: both types have the layout of the C structure. The stream is valid until it is released, and has no arrays.
    unsafe { ArrowArrayStream::from_raw(addr_of_mut!(stream).cast()) }
}

#[test]
fn a_stream_that_is_not_opened_stays_with_its_message() -> Result<(), Error> {
    let message = CStr::from_bytes_with_nul(b"no schema yet\0").expect("a text with a zero at its end");
    for message in [Some(message), None] {
        let releases = Rc::default();
        let mut stream = stream_of(message, &releases);
        assert_eq!(StreamReader::open_from(&mut stream).err(), Some(Error::Arrow(73)));
        assert_eq!((stream.is_released(), releases.get()), (false, 0));
        assert_eq!(stream.message().as_deref(), message.map(|text| text.to_str().expect("ASCII")));
        let reader = StreamReader::open_from(&mut stream)?;
        assert!(stream.is_released() && stream.message().is_none());
        assert_eq!((reader.arrow_type()?.to_string().as_str(), reader.count()), ("i32", 0));
        drop(stream);
        assert_eq!(releases.get(), 1);
    }
    Ok(())
}

#[test]
fn streams_that_are_not_opened_are_released_once() {
    let releases = Rc::default();
    assert_eq!(StreamReader::open(stream_of(None, &releases)).err(), Some(Error::Arrow(73)));
    assert_eq!(releases.get(), 1);
    let mut stream = stream_of(None, &releases);
    assert_eq!(StreamReader::open_from(&mut stream).err(), Some(Error::Arrow(73)));
    drop(stream);
    assert_eq!(releases.get(), 2);
    let mut released = ArrowArrayStream::empty();
    assert_eq!(StreamReader::open_from(&mut released).err(), Some(Error::Arrow(64)));
    assert_eq!(released.message(), None);
}

#[test]
fn a_producer_is_not_asked_after_its_end() -> Result<(), Error> {
    let mut stream = stream_of(None, &Rc::default());
    assert_eq!(StreamReader::open_from(&mut stream).err(), Some(Error::Arrow(73)));
    let mut reader = StreamReader::open_from(&mut stream)?;
    assert!(reader.next().is_none() && reader.next().is_none() && reader.message().is_none());
    Ok(())
}

/// Opens a stream of 32-bit integers that an iterator gives; each of its calls gets its number and is counted.
fn read_from(call: impl Fn(i32) -> Option<Batch> + 'static) -> Result<(StreamReader, Rc<Cell<i32>>), Error> {
    let calls = Rc::new(Cell::new(0));
    let counted = Rc::clone(&calls);
    let batches = from_fn(move || {
        counted.set(counted.get() + 1);
        call(counted.get())
    });
    Ok((StreamReader::open(export_stream(&ArrowType::new("i", &[])?, batches)?)?, calls))
}

/// Returns the next batch of a reader as text.
fn text_of(reader: &mut StreamReader) -> Option<Result<String, Error>> {
    reader.next().map(|batch| batch.map(|(column, _)| column.to_string()))
}

fn number(value: i32) -> Option<Batch> {
    Some(Column::from_values(&[value]).map(|column| (column, None)))
}

#[test]
fn an_error_with_the_number_of_success_does_not_end_a_stream() -> Result<(), Error> {
    for error in [Error::Limit(0), Error::Arrow(0), Error::UnknownStatus(0), Error::Text { status: 0, at: 0 }] {
        let (mut reader, _) = read_from(move |call| if call == 1 { Some(Err(error)) } else { number(call) })?;
        assert_eq!(text_of(&mut reader), Some(Err(Error::Arrow(73))), "{error:?}");
        assert_eq!(text_of(&mut reader), Some(Ok("[2]".to_string())), "{error:?}");
    }
    Ok(())
}

#[test]
fn an_iterator_that_panics_is_not_called_again() -> Result<(), Error> {
    let (mut reader, calls) = read_from(|call| if call == 2 { panic!("the second call") } else { number(call) })?;
    assert_eq!(text_of(&mut reader), Some(Ok("[1]".to_string())));
    for _ in 0..3 {
        assert_eq!((text_of(&mut reader), calls.get()), (Some(Err(Error::Arrow(73))), 2));
    }
    drop(reader);
    assert_eq!(Rc::strong_count(&calls), 1);
    Ok(())
}

#[test]
fn an_iterator_that_has_ended_is_not_called_again() -> Result<(), Error> {
    let (mut reader, calls) = read_from(|call| if call == 2 { None } else { number(call) })?;
    assert_eq!(text_of(&mut reader), Some(Ok("[1]".to_string())));
    for _ in 0..3 {
        assert_eq!((text_of(&mut reader), calls.get()), (None, 2));
    }
    Ok(())
}
