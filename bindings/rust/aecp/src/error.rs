use crate::raw;
use std::fmt;

/// Why a call was refused. `number` is that of `aecp.h`.
#[derive(Clone, Copy, Debug, PartialEq, Eq, Hash)]
#[non_exhaustive]
pub enum Error {
    /// The format has no such options.
    Options {
        /// Which option.
        number: u32,
    },
    /// A sample is out of range.
    Sample {
        /// The index of the first such sample.
        index: u64,
    },
    /// The stream is cut or damaged.
    Stream {
        /// 6: the stream is cut. 7: a value is too large. 8: a run is too long.
        number: u32,
        /// The bit where the coded data set begins.
        bit: u64,
    },
    /// A range is outside the samples.
    Range {
        /// The number of samples.
        count: u64,
    },
    /// No interval begins at a bit: it is after the end of the stream, or the intervals are padded
    /// and it isn't the first bit of a byte.
    Bit {
        /// The number of bits of the coded bytes that were passed.
        bits: u64,
    },
    /// There are too many samples, or too many coded bytes.
    Limit {
        /// 9: samples. 16: coded bytes.
        number: u32,
        /// The greatest number of them.
        limit: u64,
    },
    /// The edit needs more coder calls than are left of a workspace's 2^64 - 1.
    Spent,
    /// An allocation failed.
    Memory,
    /// A line of a script isn't an edit.
    Script {
        /// The first such line, counted from 1.
        line: u64,
    },
    /// The type of the elements isn't that of the stored samples. See [`Sample`](crate::Sample).
    ElementType,
}

impl Error {
    /// Returns the number of the fault in `aecp.h`. [`Error::ElementType`] is this crate's own, and
    /// its number is 0.
    pub fn number(&self) -> u32 {
        match *self {
            Error::Options { number }
            | Error::Stream { number, .. }
            | Error::Limit { number, .. } => number,
            Error::Sample { .. } => raw::SAMPLE_RANGE,
            Error::Range { .. } => raw::OUT_OF_RANGE,
            Error::Bit { .. } => raw::BIT_OUT_OF_RANGE,
            Error::Spent => raw::SPENT,
            Error::Memory => raw::MEMORY,
            Error::Script { .. } => raw::SCRIPT,
            Error::ElementType => raw::OK,
        }
    }

    /// Returns the bit, index, count, line or limit that the fault names, or 0 if it names none.
    pub fn place(&self) -> u64 {
        match *self {
            Error::Sample { index } => index,
            Error::Stream { bit, .. } => bit,
            Error::Range { count } => count,
            Error::Bit { bits } => bits,
            Error::Limit { limit, .. } => limit,
            Error::Script { line } => line,
            _ => 0,
        }
    }

    /// The error of a reply whose fault isn't 0.
    pub(crate) fn of(reply: raw::Reply) -> Error {
        let (number, place) = (reply.fault, reply.place);
        match number {
            raw::BITS_PER_SAMPLE
            | raw::BLOCK_SIZE
            | raw::INTERVAL
            | raw::RESTRICTED_WIDTH
            | raw::EVEN_BLOCK_SIZE => Error::Options { number },
            raw::SAMPLE_RANGE => Error::Sample { index: place },
            raw::TRUNCATED | raw::VALUE_TOO_LARGE | raw::RUN_TOO_LONG => {
                Error::Stream { number, bit: place }
            }
            raw::TOO_MANY_SAMPLES | raw::STREAM_TOO_LONG => Error::Limit { number, limit: place },
            raw::OUT_OF_RANGE => Error::Range { count: place },
            raw::BIT_OUT_OF_RANGE => Error::Bit { bits: place },
            raw::SPENT => Error::Spent,
            raw::MEMORY => Error::Memory,
            raw::SCRIPT => Error::Script { line: place },
            _ => panic!("libaecp.a returned the fault {number}, which the crate aecp doesn't know"),
        }
    }
}

impl fmt::Display for Error {
    fn fmt(&self, f: &mut fmt::Formatter<'_>) -> fmt::Result {
        if *self == Error::ElementType {
            return f.write_str("the type of the elements isn't that of the stored samples");
        }
        let reply = raw::Reply { fault: self.number(), place: self.place(), len: 0 };
        let mut text = [0; 200];
        let len = raw::text(&reply, &mut text).min(text.len() - 1);
        f.write_str(&String::from_utf8_lossy(&text[..len]))
    }
}

impl std::error::Error for Error {}

#[cfg(test)]
mod tests {
    use super::*;

    fn of_fault(fault: u32) -> Error {
        Error::of(raw::Reply { fault, place: 77, len: 0 })
    }

    #[test]
    fn each_fault_of_the_header_has_its_error() {
        // The number of a fault, its error, and the place that this error returns.
        let cases = [
            (1, Error::Options { number: 1 }, 0),
            (2, Error::Options { number: 2 }, 0),
            (3, Error::Options { number: 3 }, 0),
            (4, Error::Options { number: 4 }, 0),
            (5, Error::Sample { index: 77 }, 77),
            (6, Error::Stream { number: 6, bit: 77 }, 77),
            (7, Error::Stream { number: 7, bit: 77 }, 77),
            (8, Error::Stream { number: 8, bit: 77 }, 77),
            (9, Error::Limit { number: 9, limit: 77 }, 77),
            (10, Error::Range { count: 77 }, 77),
            (11, Error::Spent, 0),
            (12, Error::Memory, 0),
            (15, Error::Script { line: 77 }, 77),
            (16, Error::Limit { number: 16, limit: 77 }, 77),
            (17, Error::Options { number: 17 }, 0),
            (20, Error::Bit { bits: 77 }, 77),
        ];
        for (fault, error, place) in cases {
            assert_eq!(of_fault(fault), error);
            assert_eq!((error.number(), error.place()), (fault, place));
        }
    }

    #[test]
    #[should_panic(expected = "returned the fault 21")]
    fn an_unknown_fault_panics() {
        of_fault(21);
    }
}
