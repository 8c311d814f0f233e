use crate::{number_of, raw, zeros, Error, Options};
use std::fmt::{self, Write};

/// Why a script was not applied.
#[derive(Clone, Copy, Debug, PartialEq, Eq, Hash)]
pub struct EditError {
    /// The line of the edit that is refused, counted from 1. `None` if no single edit is.
    pub line: Option<u64>,
    /// Why. [`Error::Script`] has the line that isn't an edit.
    pub error: Error,
}

impl fmt::Display for EditError {
    fn fmt(&self, f: &mut fmt::Formatter<'_>) -> fmt::Result {
        if let Some(line) = self.line {
            write!(f, "line {line}: ")?;
        }
        self.error.fmt(f)
    }
}

impl std::error::Error for EditError {
    fn source(&self) -> Option<&(dyn std::error::Error + 'static)> {
        Some(&self.error)
    }
}

/// An edit of the samples of a [`Workspace`](crate::Workspace). Places count from 0.
#[derive(Clone, Copy, Debug, PartialEq, Eq, Hash)]
pub enum Edit<'a> {
    /// Replaces samples by the values, from sample `first` on.
    Overwrite {
        /// The place of the first replaced sample.
        first: u64,
        /// The new samples.
        values: &'a [i64],
    },
    /// Appends the values after the last sample.
    Append {
        /// The new samples.
        values: &'a [i64],
    },
    /// Keeps the first `count` samples.
    Truncate {
        /// The number of samples that stay.
        count: u64,
    },
    /// Inserts the values before sample `first`, or after the last sample if `first` is the number
    /// of samples.
    Insert {
        /// The place of the first new sample.
        first: u64,
        /// The new samples.
        values: &'a [i64],
    },
    /// Removes `len` samples, from sample `first` on.
    Remove {
        /// The place of the first removed sample.
        first: u64,
        /// The number of removed samples.
        len: u64,
    },
}

/// Why a list of edits was not applied.
#[derive(Clone, Copy, Debug, PartialEq, Eq, Hash)]
pub struct ApplyError {
    /// The index of the edit that is refused, counted from 0. `None` if no single edit is.
    pub index: Option<usize>,
    /// Why.
    pub error: Error,
}

impl fmt::Display for ApplyError {
    fn fmt(&self, f: &mut fmt::Formatter<'_>) -> fmt::Result {
        if let Some(index) = self.index {
            write!(f, "edit {index}: ")?;
        }
        self.error.fmt(f)
    }
}

impl std::error::Error for ApplyError {
    fn source(&self) -> Option<&(dyn std::error::Error + 'static)> {
        Some(&self.error)
    }
}

/// The greatest length of a word of a script, with the blank or the line feed beside it.
const LONGEST_WORD: usize = 21;

/// Appends the line of an edit to a script.
fn push_line(script: &mut String, edit: &Edit<'_>) -> Result<(), Error> {
    let (name, places, values): (&str, [Option<u64>; 2], &[i64]) = match *edit {
        Edit::Overwrite { first, values } => ("overwrite", [Some(first), None], values),
        Edit::Append { values } => ("append", [None, None], values),
        Edit::Truncate { count } => ("truncate", [Some(count), None], &[]),
        Edit::Insert { first, values } => ("insert", [Some(first), None], values),
        Edit::Remove { first, len } => ("remove", [Some(first), Some(len)], &[]),
    };
    let words = 1 + places.len() + values.len();
    script.try_reserve(words.saturating_mul(LONGEST_WORD)).map_err(|_| Error::Memory)?;
    script.push_str(name);
    for place in places.iter().flatten() {
        write!(script, " {place}").expect("a String takes all text");
    }
    for value in values {
        write!(script, " {value}").expect("a String takes all text");
    }
    script.push('\n');
    Ok(())
}

/// Returns the script of these edits, a line for each.
pub(crate) fn script_of(edits: &[Edit<'_>]) -> Result<String, Error> {
    let mut script = String::new();
    for edit in edits {
        push_line(&mut script, edit)?;
    }
    Ok(script)
}

/// Applies a script of edits to the first `count` samples of a stream, or to all if `count` is
/// `None`. Returns the edited stream and its number of samples: keep both. The script is that of
/// the command `aec --edit`, a line for each edit. All lines apply, or none.
///
/// # Errors
/// [`Error::Options`]; [`Error::Script`]; then the errors of [`decode`](crate::decode); then, with
/// the line of the edit, [`Error::Range`], [`Error::Sample`], [`Error::Limit`], [`Error::Spent`];
/// [`Error::Memory`], with a line only if the edit there was applied alone.
///
/// ```
/// use aecp::{decode, edit, encode, Error, Options};
///
/// let options = Options::new(8);
/// let coded = encode(&[1u8, 2, 3, 4], &options).unwrap();
/// let (edited, count) = edit(&coded, Some(4), "overwrite 1 9\nappend 7\n", &options).unwrap();
/// assert_eq!(decode::<u8>(&edited, Some(count), &options).unwrap(), [1, 9, 3, 4, 7]);
///
/// let refused = edit(&coded, Some(4), "append 7\nremove 5 1\n", &options).unwrap_err();
/// assert_eq!((refused.line, refused.error), (Some(2), Error::Range { count: 5 }));
/// ```
pub fn edit(
    coded: &[u8],
    count: Option<u64>,
    script: impl AsRef<[u8]>,
    options: &Options,
) -> Result<(Vec<u8>, u64), EditError> {
    let (script, count) = (script.as_ref(), number_of(count));
    let mut room = coded.len() as u64 + 2 * script.len() as u64;
    loop {
        let mut out = zeros(room).map_err(|error| EditError { line: None, error })?;
        let told = raw::edit(&options.0, count, script, coded, &mut out);
        match told.reply.fault {
            raw::OK => {
                out.truncate(told.reply.len as usize);
                return Ok((out, told.samples));
            }
            raw::NO_ROOM if told.reply.len > room => room = told.reply.len,
            _ => {
                let line = (told.line != 0).then_some(told.line);
                return Err(EditError { line, error: Error::of(told.reply) });
            }
        }
    }
}
