//! Lossless coding of integer samples in the format CCSDS 121.0-B-3, over the proved library
//! `libaecp.a`.
//!
//! ```
//! use aecp::{decode, decode_range, encode, Options};
//!
//! let samples: Vec<u16> = (0..4096).map(|i| 1000 + i / 7).collect();
//! let options = Options::new(16);
//! let coded = encode(&samples, &options)?;
//! assert!(coded.len() < 2 * samples.len());
//!
//! let back: Vec<u16> = decode(&coded, Some(4096), &options)?;
//! assert_eq!(back, samples);
//! let part: Vec<u16> = decode_range(&coded, Some(4096), 100, 50, &options)?;
//! assert_eq!(part, samples[100..150]);
//! # Ok::<(), aecp::Error>(())
//! ```
//!
//! [`offsets`] finds where intervals begin, and [`decode_at`] decodes from there on. [`Encoder`] and
//! [`Decoder`] code and decode in pieces, [`Workspace`] and [`edit`] edit a stream. An [`Edit`] is
//! one of many that [`Workspace::apply_all`] applies together.
//!
//! **A stream contains neither its options nor its sample count.** Keep both with the stream: no
//! call is sure to notice wrong ones.
//!
//! The contracts of the library's calls are proved. This crate is tested, not proved. A thread
//! needs at least 32 KiB of stack.
//!
//! # Panics
//! Each call that takes options, [`Options::bound`] too, panics if the linked `libaecp.a` has
//! another major version than this crate, or an older minor one. Such a library may have other
//! structures, or lack calls. Every call panics if the library returns a fault that this crate
//! doesn't know.
#![warn(missing_docs)]

mod editing;
mod error;
mod options;
mod raw;
mod sample;
mod streams;
mod workspace;

pub use editing::{edit, ApplyError, Edit, EditError};
pub use error::Error;
pub use options::Options;
pub use sample::Sample;
pub use streams::{Decoder, Encoder};
pub use workspace::Workspace;

use std::mem::size_of;

/// More samples than a byte of a stream can contain. At most, each 7 bits are a run of 64 blocks of
/// 64 zeros.
const MOST_A_BYTE: u64 = 64 * 64 * 8 / 7 + 1;
/// The bytes that are allocated before the stream is checked, at most.
const FIRST_ROOM: u64 = 1 << 24;

/// Returns the three numbers of the version of the linked library.
pub fn version() -> (u32, u32, u32) {
    let number = raw::version();
    (number / 10000, number / 100 % 100, number % 100)
}

/// Codes samples. Bytes at the end of a slice of `u8` that don't fill a sample are dropped.
///
/// # Errors
/// [`Error::Options`], [`Error::Sample`] with the index of the first sample that is out of range,
/// [`Error::Limit`], [`Error::Memory`], [`Error::ElementType`].
pub fn encode<T: Sample>(samples: &[T], options: &Options) -> Result<Vec<u8>, Error> {
    sample::check_type::<T>(options)?;
    let bytes = raw::bytes_of(samples);
    let bound = options.bound((bytes.len() / options.storage()) as u64);
    filled(bound, |out: &mut [u8]| raw::encode(&options.0, bytes, out))
}

/// Decodes the first `count` samples of a stream. Bytes after these are not read. With `None` all
/// samples are decoded, and also the filler at the end.
///
/// # Errors
/// [`Error::Options`], [`Error::Stream`] with the bit where the refused coded data set begins,
/// [`Error::Limit`], [`Error::Memory`], [`Error::ElementType`].
///
/// ```
/// use aecp::{decode, Error, Options};
///
/// let refused = decode::<u8>(&[0x20], Some(8), &Options::new(8));
/// assert_eq!(refused, Err(Error::Stream { number: 6, bit: 0 }));
/// assert!(refused.unwrap_err().to_string().contains("bit 0"));
/// ```
pub fn decode<T: Sample>(
    coded: &[u8],
    count: Option<u64>,
    options: &Options,
) -> Result<Vec<T>, Error> {
    sample::check_type::<T>(options)?;
    let count = number_of(count);
    let room = most_stored(coded, count, options);
    filled(room, |out| raw::decode(&options.0, count, coded, out))
}

/// Decodes `len` of the first `count` samples, from sample `first` on, counted from 0. The whole
/// stream is checked.
///
/// # Errors
/// Those of [`decode`], and [`Error::Range`].
pub fn decode_range<T: Sample>(
    coded: &[u8],
    count: Option<u64>,
    first: u64,
    len: u64,
    options: &Options,
) -> Result<Vec<T>, Error> {
    sample::check_type::<T>(options)?;
    let count = number_of(count);
    let room = most_stored(coded, len, options);
    filled(room, |out| raw::range(&options.0, count, first, len, coded, out))
}

/// Finds where the intervals of the first `count` samples begin. Returns, for each interval in
/// order, the bit of the stream where it begins, counted from 0. With `None` these are the intervals
/// of all samples.
///
/// An interval has [`Options::block_size`] times [`Options::interval`] samples; the last one may
/// have fewer. [`decode_at`] decodes from such a bit on. All these samples are checked.
///
/// # Errors
/// Those of [`decode`], except [`Error::ElementType`].
///
/// ```
/// use aecp::{decode_at, encode, offsets, Options};
///
/// let samples: Vec<u16> = (0..5000).map(|i| i / 3).collect();
/// let options = Options::new(16);
/// let coded = encode(&samples, &options)?;
/// let begins = offsets(&coded, Some(5000), &options)?;
/// assert_eq!(begins.len(), 3);
/// let part: Vec<u16> = decode_at(&coded, begins[1], Some(100), &options)?;
/// assert_eq!(part, samples[2048..2148]);
/// # Ok::<(), aecp::Error>(())
/// ```
pub fn offsets(coded: &[u8], count: Option<u64>, options: &Options) -> Result<Vec<u64>, Error> {
    let mut room = first_intervals(coded, count, options);
    loop {
        let mut out: Vec<u64> = zeros(room)?;
        let reply = raw::offsets(&options.0, number_of(count), coded, &mut out);
        match reply.fault {
            raw::OK => {
                out.truncate(reply.len as usize);
                return Ok(out);
            }
            raw::NO_ROOM if reply.len > room => room = reply.len,
            _ => return Err(Error::of(reply)),
        }
    }
}

/// Decodes `count` samples from bit `bit` of a stream on, or with `None` all samples from there on.
/// At the bit where an interval begins, as [`offsets`] returns it, these are the samples from the
/// first one of that interval on. At another bit the call returns wrong samples or an error.
///
/// `coded` may be a part of a stream that begins at a whole byte: subtract the bits before it from
/// the bit. Each call copies `coded`, so pass only the bytes that are needed.
///
/// # Errors
/// Those of [`decode`], with bits counted from the first bit of `coded`, and [`Error::Bit`].
pub fn decode_at<T: Sample>(
    coded: &[u8],
    bit: u64,
    count: Option<u64>,
    options: &Options,
) -> Result<Vec<T>, Error> {
    sample::check_type::<T>(options)?;
    let count = number_of(count);
    let room = most_stored(coded, count, options);
    filled(room, |out| raw::decode_at(&options.0, bit, count, coded, out))
}

/// Returns a guess of the number of intervals of so many samples. A wrong count doesn't make it
/// large.
fn first_intervals(coded: &[u8], count: Option<u64>, options: &Options) -> u64 {
    let (size, blocks) = (u64::from(options.0.block_size), u64::from(options.0.interval).max(1));
    let bytes = coded.len() as u64;
    let intervals = match count {
        Some(count) => count / size.saturating_mul(blocks).max(1) + 1,
        None => bytes / blocks + 1,
    };
    intervals.min(bytes.saturating_mul(8)).min(FIRST_ROOM / size_of::<u64>() as u64)
}

/// Returns a count for C. `u64::MAX`, which means no count there, becomes the number below it.
fn number_of(count: Option<u64>) -> u64 {
    count.map_or(raw::ALL, |it| it.min(raw::ALL - 1))
}

/// Returns a guess of the bytes of so many stored samples. A wrong count doesn't make it large.
fn most_stored(coded: &[u8], count: u64, options: &Options) -> u64 {
    let most = (coded.len() as u64).saturating_mul(MOST_A_BYTE);
    let stored = count.min(most).saturating_mul(options.storage() as u64);
    stored.min(FIRST_ROOM)
}

/// Returns a vector that a call fills. `room` is a guess of its bytes. If the call asks for more
/// bytes, it is repeated.
pub(crate) fn filled<T: Sample>(
    mut room: u64,
    call: impl Fn(&mut [u8]) -> raw::Reply,
) -> Result<Vec<T>, Error> {
    loop {
        let size = size_of::<T>() as u64;
        let mut out: Vec<T> = zeros(room / size + u64::from(room % size != 0))?;
        let reply = call(raw::bytes_of_mut(&mut out));
        match reply.fault {
            raw::OK => {
                out.truncate(reply.len as usize / size_of::<T>());
                return Ok(out);
            }
            raw::NO_ROOM if reply.len > room => room = reply.len,
            _ => return Err(Error::of(reply)),
        }
    }
}

/// Returns the length that a reply has, or its error.
pub(crate) fn checked(reply: raw::Reply) -> Result<u64, Error> {
    if reply.fault == raw::OK {
        Ok(reply.len)
    } else {
        Err(Error::of(reply))
    }
}

/// Returns a vector of so many zeros.
pub(crate) fn zeros<T: Copy + Default>(len: u64) -> Result<Vec<T>, Error> {
    let len = usize::try_from(len).map_err(|_| Error::Memory)?;
    let mut out = Vec::new();
    out.try_reserve_exact(len).map_err(|_| Error::Memory)?;
    out.resize(len, T::default());
    Ok(out)
}
