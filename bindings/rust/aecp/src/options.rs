use crate::raw;

/// How samples are stored and coded. A stream contains no options, so keep them with it.
///
/// ```
/// use aecp::Options;
///
/// let options = Options::new(12).with_signed(true).with_block_size(32);
/// assert_eq!((options.bits(), options.storage()), (12, 2));
/// assert_eq!((options.signed(), options.block_size()), (true, 32));
/// ```
///
/// The calls that take options check them. `with_..` returns new options, and accepts every value.
/// The function without `with_` returns the value.
#[derive(Clone, Copy, Debug, PartialEq, Eq, Hash)]
pub struct Options(pub(crate) raw::Options);

impl Options {
    /// Returns options for samples of `bits` bits, 1 to 32: unsigned, little-endian, in blocks of
    /// 16 samples and intervals of 128 blocks.
    pub fn new(bits: u32) -> Options {
        Options(raw::Options {
            bits,
            block_size: 16,
            interval: 128,
            is_signed: false,
            msb_first: false,
            three_byte: false,
            preprocess: true,
            pad: false,
            restricted: false,
            even_blocks: false,
        })
    }

    /// Sets the number of samples in a block: 8, 16, 32 or 64; with
    /// [`with_even_blocks`](Options::with_even_blocks) every even number from 8 to 64.
    #[must_use]
    pub fn with_block_size(mut self, samples: u32) -> Options {
        self.0.block_size = samples;
        self
    }

    /// Sets the number of blocks in a reference sample interval, 1 to 4096.
    #[must_use]
    pub fn with_interval(mut self, blocks: u32) -> Options {
        self.0.interval = blocks;
        self
    }

    /// Sets whether samples are signed.
    #[must_use]
    pub fn with_signed(mut self, is_on: bool) -> Options {
        self.0.is_signed = is_on;
        self
    }

    /// Sets whether stored samples are big-endian, not little-endian.
    #[must_use]
    pub fn with_msb_first(mut self, is_on: bool) -> Options {
        self.0.msb_first = is_on;
        self
    }

    /// Sets whether samples of 17 to 24 bits are stored in three bytes instead of four.
    #[must_use]
    pub fn with_three_byte(mut self, is_on: bool) -> Options {
        self.0.three_byte = is_on;
        self
    }

    /// Sets whether each sample is predicted from the one before, which is the default.
    #[must_use]
    pub fn with_preprocess(mut self, is_on: bool) -> Options {
        self.0.preprocess = is_on;
        self
    }

    /// Sets whether each interval is filled up to a byte boundary.
    #[must_use]
    pub fn with_pad(mut self, is_on: bool) -> Options {
        self.0.pad = is_on;
        self
    }

    /// Sets whether only the restricted set of code options is used, for samples of at most 4 bits.
    #[must_use]
    pub fn with_restricted(mut self, is_on: bool) -> Options {
        self.0.restricted = is_on;
        self
    }

    /// Sets whether a block may have any even number of samples from 8 to 64.
    #[must_use]
    pub fn with_even_blocks(mut self, is_on: bool) -> Options {
        self.0.even_blocks = is_on;
        self
    }

    /// Returns the number of bits per sample.
    pub fn bits(&self) -> u32 {
        self.0.bits
    }

    /// Returns the number of samples in a block.
    pub fn block_size(&self) -> u32 {
        self.0.block_size
    }

    /// Returns the number of blocks in a reference sample interval.
    pub fn interval(&self) -> u32 {
        self.0.interval
    }

    /// Returns whether samples are signed.
    pub fn signed(&self) -> bool {
        self.0.is_signed
    }

    /// Returns whether stored samples are big-endian.
    pub fn msb_first(&self) -> bool {
        self.0.msb_first
    }

    /// Returns whether samples of 17 to 24 bits are stored in three bytes.
    pub fn three_byte(&self) -> bool {
        self.0.three_byte
    }

    /// Returns whether each sample is predicted from the one before.
    pub fn preprocess(&self) -> bool {
        self.0.preprocess
    }

    /// Returns whether each interval is filled up to a byte boundary.
    pub fn pad(&self) -> bool {
        self.0.pad
    }

    /// Returns whether only the restricted set of code options is used.
    pub fn restricted(&self) -> bool {
        self.0.restricted
    }

    /// Returns whether a block may have any even number of samples from 8 to 64.
    pub fn even_blocks(&self) -> bool {
        self.0.even_blocks
    }

    /// Returns the number of bytes of a stored sample.
    pub fn storage(&self) -> usize {
        match self.0.bits {
            0..=8 => 1,
            9..=16 => 2,
            17..=24 if self.0.three_byte => 3,
            _ => 4,
        }
    }

    /// Returns a length in bytes that suffices for the code of so many samples, or 0 if the options
    /// are refused or there are more than 2^32 samples.
    pub fn bound(&self, samples: u64) -> u64 {
        raw::bound(&self.0, samples)
    }
}
