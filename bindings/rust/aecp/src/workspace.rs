use crate::{checked, editing, filled, number_of, raw, zeros, ApplyError, Edit, Error, Options};
use std::fmt;

/// A list of samples in coded form, for repeated edits.
///
/// ```
/// use aecp::{decode, Error, Options, Workspace};
///
/// let options = Options::new(16);
/// let mut work = Workspace::new(&options)?;
/// work.append(&[10, 11, 12, 13])?;
/// work.overwrite(2, &[7])?;
/// assert_eq!(work.read(0, 4)?, [10, 11, 7, 13]);
///
/// // A refused edit changes no sample.
/// assert_eq!(work.append(&[1 << 16]), Err(Error::Sample { index: 0 }));
/// assert_eq!(work.len(), 4);
///
/// let back: Vec<u16> = decode(&work.to_coded()?, Some(work.len()), &options)?;
/// assert_eq!(back, [10, 11, 7, 13]);
/// # Ok::<(), Error>(())
/// ```
///
/// A workspace can move to another thread. Two threads can't share one:
///
/// ```
/// # use aecp::{Options, Workspace};
/// let work = Workspace::new(&Options::new(8))?;
/// let len = std::thread::spawn(move || work.len()).join().unwrap();
/// assert_eq!(len, 0);
/// # Ok::<(), aecp::Error>(())
/// ```
///
/// ```compile_fail,E0277
/// fn shared<T: Sync>() {}
/// shared::<aecp::Workspace>();
/// ```
///
/// Dropping a workspace frees its memory.
pub struct Workspace {
    handle: raw::Handle,
    options: Options,
}

impl Workspace {
    /// Returns an empty workspace of at most 2^32 samples.
    ///
    /// # Errors
    /// [`Error::Options`], [`Error::Memory`].
    pub fn new(options: &Options) -> Result<Workspace, Error> {
        let (handle, reply) = raw::Handle::open(&options.0);
        checked(reply)?;
        Ok(Workspace { handle, options: *options })
    }

    /// Returns a workspace with the first `count` samples of a stream, or with all if `count` is
    /// `None`.
    ///
    /// # Errors
    /// [`Error::Options`], [`Error::Stream`], [`Error::Limit`], [`Error::Memory`].
    pub fn of_coded(
        coded: &[u8],
        count: Option<u64>,
        options: &Options,
    ) -> Result<Workspace, Error> {
        let (handle, reply) = raw::Handle::load(&options.0, number_of(count), coded);
        checked(reply)?;
        Ok(Workspace { handle, options: *options })
    }

    /// Appends samples after the last one. Returns the number of intervals that were coded. One
    /// call with many samples is faster than many calls with one.
    ///
    /// # Errors
    /// [`Error::Sample`], [`Error::Limit`], [`Error::Spent`], [`Error::Memory`]. The samples are
    /// then unchanged.
    pub fn append(&mut self, values: &[i64]) -> Result<u64, Error> {
        checked(self.handle.append(values))
    }

    /// Replaces `values.len()` samples by the values, from sample `first` on. Returns the number of
    /// intervals that were coded.
    ///
    /// # Errors
    /// [`Error::Range`], [`Error::Sample`], [`Error::Spent`], [`Error::Memory`]. The samples are
    /// then unchanged.
    pub fn overwrite(&mut self, first: u64, values: &[i64]) -> Result<u64, Error> {
        checked(self.handle.overwrite(first, values))
    }

    /// Inserts values before sample `first`, or after the last sample if `first` is the number of
    /// samples. Returns the number of intervals that were coded.
    ///
    /// # Errors
    /// [`Error::Range`], [`Error::Sample`], [`Error::Limit`], [`Error::Spent`], [`Error::Memory`].
    /// The samples are then unchanged.
    pub fn insert(&mut self, first: u64, values: &[i64]) -> Result<u64, Error> {
        checked(self.handle.insert(first, values))
    }

    /// Removes `len` samples, from sample `first` on. Returns the number of intervals that were
    /// coded.
    ///
    /// # Errors
    /// [`Error::Range`], [`Error::Spent`], [`Error::Memory`]. The samples are then unchanged.
    pub fn remove(&mut self, first: u64, len: u64) -> Result<u64, Error> {
        checked(self.handle.remove(first, len))
    }

    /// Keeps the first `count` samples. Returns the number of intervals that were coded.
    ///
    /// # Errors
    /// [`Error::Range`], [`Error::Spent`], [`Error::Memory`]. The samples are then unchanged.
    pub fn truncate(&mut self, count: u64) -> Result<u64, Error> {
        checked(self.handle.truncate(count))
    }

    /// Applies all edits, or none of them. Returns the number of intervals that were coded: each
    /// changed one once. For many edits this is faster than a call for each. The places of an edit
    /// count from 0, in the result of the edits before it.
    ///
    /// # Errors
    /// With the index of the refused edit, [`Error::Range`], [`Error::Sample`], [`Error::Limit`],
    /// [`Error::Spent`]. Without an index, [`Error::Memory`]. The samples are then unchanged.
    ///
    /// ```
    /// use aecp::{Edit, Error, Options, Workspace};
    ///
    /// let mut work = Workspace::new(&Options::new(16))?;
    /// work.append(&[10, 11, 12, 13])?;
    /// let edits = [Edit::Insert { first: 0, values: &[7, 8] }, Edit::Truncate { count: 4 }];
    /// work.apply_all(&edits).unwrap();
    /// assert_eq!(work.read(0, 4)?, [7, 8, 10, 11]);
    ///
    /// let edits = [Edit::Truncate { count: 2 }, Edit::Remove { first: 1, len: 2 }];
    /// let refused = work.apply_all(&edits).unwrap_err();
    /// assert_eq!((refused.index, refused.error), (Some(1), Error::Range { count: 2 }));
    /// assert_eq!(work.len(), 4);
    /// # Ok::<(), Error>(())
    /// ```
    pub fn apply_all(&mut self, edits: &[Edit<'_>]) -> Result<u64, ApplyError> {
        let script =
            editing::script_of(edits).map_err(|error| ApplyError { index: None, error })?;
        let told = self.handle.apply(script.as_bytes());
        checked(told.reply).map_err(|error| {
            // Each edit has one line, and lines are counted from 1.
            let index = (told.line as usize).checked_sub(1);
            ApplyError { index, error }
        })
    }

    /// Returns `len` samples, from sample `first` on.
    ///
    /// # Errors
    /// [`Error::Range`], [`Error::Memory`].
    pub fn read(&self, first: u64, len: u64) -> Result<Vec<i64>, Error> {
        // The call with no buffer checks the range before memory is allocated for it.
        let asked = self.handle.read(first, len, &mut []);
        if asked.fault != raw::NO_ROOM {
            return checked(asked).map(|_| Vec::new());
        }
        let mut out = zeros(asked.len)?;
        checked(self.handle.read(first, len, &mut out))?;
        Ok(out)
    }

    /// Returns the stream of all samples. [`decode`](crate::decode) reads it with
    /// [`len`](Workspace::len) as its count.
    ///
    /// # Errors
    /// [`Error::Memory`].
    pub fn to_coded(&self) -> Result<Vec<u8>, Error> {
        filled(0, |out| self.handle.write(out))
    }

    /// Returns the number of samples.
    pub fn len(&self) -> u64 {
        self.handle.size()
    }

    /// Returns whether there is no sample.
    pub fn is_empty(&self) -> bool {
        self.len() == 0
    }

    /// Returns the number of intervals that have been coded since the workspace was opened.
    pub fn calls(&self) -> u64 {
        self.handle.calls()
    }

    /// Returns the options.
    pub fn options(&self) -> &Options {
        &self.options
    }
}

impl fmt::Debug for Workspace {
    fn fmt(&self, f: &mut fmt::Formatter<'_>) -> fmt::Result {
        f.debug_struct("Workspace")
            .field("options", &self.options)
            .field("len", &self.len())
            .finish()
    }
}
