use crate::{checked, number_of, raw, sample, zeros, Error, Options, Sample};
use std::fmt;
use std::marker::PhantomData;
use std::mem::size_of;

/// Codes samples that come in pieces. However they are cut, the bytes of all calls are together
/// those of one [`encode`](crate::encode) of all samples.
///
/// ```
/// use aecp::{encode, Encoder, Options};
///
/// let samples: Vec<u16> = (0..5000).map(|i| 1000 + i / 7).collect();
/// let options = Options::new(16);
/// let mut encoder = Encoder::new(&options)?;
/// let mut coded = Vec::new();
/// for piece in samples.chunks(999) {
///     coded.extend(encoder.feed(piece)?);
/// }
/// coded.extend(encoder.finish()?);
/// assert_eq!(coded, encode(&samples, &options)?);
/// # Ok::<(), aecp::Error>(())
/// ```
///
/// It keeps less than an interval of samples, and the code that wasn't returned.
pub struct Encoder {
    coder: raw::Coder,
    options: Options,
}

impl Encoder {
    /// Returns an encoder of at most 2^32 samples.
    ///
    /// # Errors
    /// [`Error::Options`], [`Error::Memory`].
    pub fn new(options: &Options) -> Result<Encoder, Error> {
        let (coder, reply) = raw::Coder::open(&options.0);
        checked(reply)?;
        Ok(Encoder { coder, options: *options })
    }

    /// Takes more samples. Returns the bytes that are complete, those of whole intervals; often
    /// there are none. In pieces of `u8` a sample may be cut in two.
    ///
    /// # Errors
    /// [`Error::Sample`] with the index counted from the first of all samples, [`Error::Limit`],
    /// [`Error::Memory`]: each later call returns the same. [`Error::ElementType`]: nothing was
    /// taken.
    pub fn feed<T: Sample>(&mut self, samples: &[T]) -> Result<Vec<u8>, Error> {
        sample::check_type::<T>(&self.options)?;
        let len = checked(self.coder.feed(raw::bytes_of(samples)))?;
        self.take(len)
    }

    /// Ends the stream, and returns its last bytes. Bytes that don't fill a sample are dropped.
    ///
    /// # Errors
    /// The error of an earlier `feed`, [`Error::Memory`].
    pub fn finish(mut self) -> Result<Vec<u8>, Error> {
        let len = checked(self.coder.finish())?;
        self.take(len)
    }

    /// Takes the bytes that are complete, of which there are `len`.
    fn take(&mut self, len: u64) -> Result<Vec<u8>, Error> {
        let mut out = zeros(len)?;
        checked(self.coder.take(&mut out))?;
        Ok(out)
    }
}

impl fmt::Debug for Encoder {
    fn fmt(&self, f: &mut fmt::Formatter<'_>) -> fmt::Result {
        f.debug_struct("Encoder").field("options", &self.options).finish_non_exhaustive()
    }
}

/// Decodes a stream interval by interval: an iterator over the samples of each. It keeps a copy of
/// the stream, and the samples of one interval.
///
/// ```
/// use aecp::{encode, Decoder, Options};
///
/// let samples: Vec<u16> = (0..5000).map(|i| 1000 + i / 7).collect();
/// let options = Options::new(16).with_interval(16);
/// let coded = encode(&samples, &options)?;
///
/// let mut decoder = Decoder::<u16>::new(&coded, Some(5000), &options)?;
/// assert_eq!(decoder.next().unwrap()?, samples[..256]);
/// assert_eq!(decoder.go_to(10)?, 2560);
/// let rest = decoder.collect::<Result<Vec<_>, _>>()?.concat();
/// assert_eq!(rest, samples[2560..]);
/// # Ok::<(), aecp::Error>(())
/// ```
///
/// An item is an error if its interval is refused: [`Error::Stream`], [`Error::Limit`],
/// [`Error::Memory`]. The iterator then ends, until [`go_to`](Decoder::go_to) succeeds. The samples
/// before it may be those of a bad stream.
pub struct Decoder<T> {
    reader: raw::Reader,
    options: Options,
    /// The most elements of an interval.
    most: u64,
    is_over: bool,
    elements: PhantomData<fn() -> T>,
}

impl<T: Sample> Decoder<T> {
    /// Returns a decoder of the first `count` samples of a stream, or of all if `count` is `None`.
    ///
    /// # Errors
    /// [`Error::Options`], [`Error::Limit`], [`Error::Memory`], [`Error::ElementType`]. No sample
    /// has been read yet, so a bad stream is no error here.
    pub fn new(coded: &[u8], count: Option<u64>, options: &Options) -> Result<Decoder<T>, Error> {
        sample::check_type::<T>(options)?;
        let (reader, reply) = raw::Reader::open(&options.0, number_of(count), coded);
        let most = checked(reply)? / size_of::<T>() as u64;
        Ok(Decoder { reader, options: *options, most, is_over: false, elements: PhantomData })
    }

    /// Goes to the start of an interval, counted from 0, or to the end if the stream has fewer.
    /// Returns the number of samples before there.
    ///
    /// # Errors
    /// [`Error::Stream`], [`Error::Limit`]. The decoder is then where it was.
    pub fn go_to(&mut self, interval: u64) -> Result<u64, Error> {
        let before = checked(self.reader.go_to(interval))?;
        self.is_over = false;
        Ok(before)
    }

    /// Returns the samples of the next interval, or none after the last one.
    fn read(&mut self) -> Result<Vec<T>, Error> {
        let mut out: Vec<T> = zeros(self.most)?;
        let len = checked(self.reader.next(raw::bytes_of_mut(&mut out)))?;
        out.truncate(len as usize / size_of::<T>());
        Ok(out)
    }
}

impl<T: Sample> Iterator for Decoder<T> {
    type Item = Result<Vec<T>, Error>;

    fn next(&mut self) -> Option<Self::Item> {
        if self.is_over {
            return None;
        }
        let read = self.read();
        self.is_over = read.as_ref().map_or(true, Vec::is_empty);
        match read {
            Ok(samples) if samples.is_empty() => None,
            read => Some(read),
        }
    }
}

impl<T> fmt::Debug for Decoder<T> {
    fn fmt(&self, f: &mut fmt::Formatter<'_>) -> fmt::Result {
        f.debug_struct("Decoder").field("options", &self.options).finish_non_exhaustive()
    }
}
