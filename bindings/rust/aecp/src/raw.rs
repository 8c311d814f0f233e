//! The calls of aecp-sys. All unsafe code of this crate is in this file. Each of its functions is
//! safe to call.

use std::cell::UnsafeCell;
use std::mem::size_of_val;

// The faults, except AECP_NOT_OPEN: this crate calls only with a handle, coder or reader that is open.
/// A sample count that stands for all samples of a stream.
pub use aecp_sys::AECP_ALL as ALL;
/// The version of the header that the crate aecp-sys restates.
pub use aecp_sys::AECP_VERSION as VERSION;
use aecp_sys::{
    aecp_append, aecp_apply, aecp_bound, aecp_calls, aecp_close, aecp_coder_close, aecp_coder_feed,
    aecp_coder_finish, aecp_coder_open, aecp_coder_take, aecp_decode, aecp_decode_at, aecp_edit,
    aecp_encode, aecp_handle as CHandle, aecp_insert, aecp_load, aecp_offsets, aecp_open,
    aecp_overwrite, aecp_range, aecp_read, aecp_reader_close, aecp_reader_go_to, aecp_reader_next,
    aecp_reader_open, aecp_remove, aecp_size, aecp_text, aecp_truncate, aecp_version, aecp_write,
    AECP_HANDLE,
};
pub use aecp_sys::{aecp_edit_reply as EditReply, aecp_options as Options, aecp_reply as Reply};
pub use aecp_sys::{
    AECP_BITS_PER_SAMPLE as BITS_PER_SAMPLE, AECP_BIT_OUT_OF_RANGE as BIT_OUT_OF_RANGE,
    AECP_BLOCK_SIZE as BLOCK_SIZE, AECP_EVEN_BLOCK_SIZE as EVEN_BLOCK_SIZE,
    AECP_INTERVAL as INTERVAL, AECP_MEMORY as MEMORY, AECP_NO_ROOM as NO_ROOM, AECP_OK as OK,
    AECP_OUT_OF_RANGE as OUT_OF_RANGE, AECP_RESTRICTED_WIDTH as RESTRICTED_WIDTH,
    AECP_RUN_TOO_LONG as RUN_TOO_LONG, AECP_SAMPLE_RANGE as SAMPLE_RANGE, AECP_SCRIPT as SCRIPT,
    AECP_SPENT as SPENT, AECP_STREAM_TOO_LONG as STREAM_TOO_LONG,
    AECP_TOO_MANY_SAMPLES as TOO_MANY_SAMPLES, AECP_TRUNCATED as TRUNCATED,
    AECP_VALUE_TOO_LARGE as VALUE_TOO_LARGE,
};

/// The version of the linked library.
pub fn version() -> u32 {
    // SAFETY: the function takes nothing, and reads no memory.
    unsafe { aecp_version() }
}

/// Panics if the linked library doesn't fit this file.
fn assert_version() {
    assert_fits(version());
}

/// Panics if the structures of a library of this version may differ from those of [`VERSION`], or
/// if it lacks calls of that version.
fn assert_fits(version: u32) {
    let fits = version / 10_000 == VERSION / 10_000 && version / 100 >= VERSION / 100;
    assert!(fits, "libaecp.a has another version than the crate aecp");
}

/// Makes one call. Returns the reply that it fills, which also has the fault that it returns.
fn replied<R: Default>(call: impl FnOnce(&mut R) -> u32) -> R {
    let mut reply = R::default();
    call(&mut reply);
    reply
}

/// Codes stored samples into `out`.
pub fn encode(options: &Options, samples: &[u8], out: &mut [u8]) -> Reply {
    assert_version();
    // SAFETY: the pointers and lengths are those of live slices; `out` and `reply` are exclusive
    // borrows, so they overlap nothing.
    replied(|reply| unsafe {
        aecp_encode(
            options,
            samples.as_ptr().cast(),
            samples.len(),
            out.as_mut_ptr(),
            out.len(),
            reply,
        )
    })
}

/// Decodes the first `count` samples into `out`, as they are stored.
pub fn decode(options: &Options, count: u64, coded: &[u8], out: &mut [u8]) -> Reply {
    assert_version();
    // SAFETY: as in `encode`.
    replied(|reply| unsafe {
        aecp_decode(
            options,
            count,
            coded.as_ptr(),
            coded.len(),
            out.as_mut_ptr().cast(),
            out.len(),
            reply,
        )
    })
}

/// Decodes `len` of these samples, from place `first` on.
pub fn range(
    options: &Options,
    count: u64,
    first: u64,
    len: u64,
    coded: &[u8],
    out: &mut [u8],
) -> Reply {
    assert_version();
    let (at, room) = (out.as_mut_ptr().cast(), out.len());
    // SAFETY: as in `encode`.
    replied(|reply| unsafe {
        aecp_range(options, count, first, len, coded.as_ptr(), coded.len(), at, room, reply)
    })
}

/// Finds the bits where the intervals of the first `count` samples begin.
pub fn offsets(options: &Options, count: u64, coded: &[u8], out: &mut [u64]) -> Reply {
    assert_version();
    let (at, room) = (out.as_mut_ptr(), out.len());
    // SAFETY: as in `encode`.
    replied(|reply| unsafe {
        aecp_offsets(options, count, coded.as_ptr(), coded.len(), at, room, reply)
    })
}

/// Decodes `count` samples from bit `bit` on into `out`, as they are stored.
pub fn decode_at(options: &Options, bit: u64, count: u64, coded: &[u8], out: &mut [u8]) -> Reply {
    assert_version();
    let (at, room) = (out.as_mut_ptr().cast(), out.len());
    // SAFETY: as in `encode`.
    replied(|reply| unsafe {
        aecp_decode_at(options, bit, count, coded.as_ptr(), coded.len(), at, room, reply)
    })
}

/// Applies a script of edits to the first `count` samples, and writes the edited stream into `out`.
pub fn edit(
    options: &Options,
    count: u64,
    script: &[u8],
    coded: &[u8],
    out: &mut [u8],
) -> EditReply {
    assert_version();
    // SAFETY: as in `encode`.
    replied(|reply| unsafe {
        aecp_edit(
            options,
            count,
            script.as_ptr().cast(),
            script.len(),
            coded.as_ptr(),
            coded.len(),
            out.as_mut_ptr(),
            out.len(),
            reply,
        )
    })
}

/// A length in bytes that suffices for the code of so many samples. 0 if the options are refused.
pub fn bound(options: &Options, samples: u64) -> u64 {
    assert_version();
    // SAFETY: the pointer is that of a live borrow.
    unsafe { aecp_bound(options, samples) }
}

/// Writes the text of a reply and a zero into `out`. The length of the whole text, which may be
/// longer than `out`.
pub fn text(reply: &Reply, out: &mut [u8]) -> usize {
    // SAFETY: as in `encode`.
    unsafe { aecp_text(reply, out.as_mut_ptr(), out.len()) }
}

/// The samples of a stored type as bytes.
pub fn bytes_of<T: crate::Sample>(samples: &[T]) -> &[u8] {
    // SAFETY: `Sample` is sealed, and each type that has it is an integer: no padding, and each
    // byte is initialised.
    unsafe { std::slice::from_raw_parts(samples.as_ptr().cast(), size_of_val(samples)) }
}

/// The same, to be filled.
pub fn bytes_of_mut<T: crate::Sample>(samples: &mut [T]) -> &mut [u8] {
    // SAFETY: as in `bytes_of`; every pattern of bits is a value of an integer.
    unsafe { std::slice::from_raw_parts_mut(samples.as_mut_ptr().cast(), size_of_val(samples)) }
}

/// A handle with a workspace, or with none. Its calls take `&self`, since the type isn't `Sync`.
pub struct Handle(UnsafeCell<CHandle>);

// SAFETY: the workspace behind the pointer belongs to this handle alone, and the library keeps
// nothing for a thread. So any thread may call, one at a time: `UnsafeCell` and the pointer leave
// the type without `Sync`.
unsafe impl Send for Handle {}

impl Drop for Handle {
    fn drop(&mut self) {
        // SAFETY: the handle began as AECP_HANDLE and only the library has changed it. Nothing
        // borrows it any more.
        unsafe { aecp_close(self.0.get()) }
    }
}

impl Handle {
    /// A handle that holds no workspace.
    fn empty() -> Handle {
        Handle(UnsafeCell::new(AECP_HANDLE))
    }

    /// Makes one call with the handle.
    fn with(&self, call: impl FnOnce(*mut CHandle, &mut Reply) -> u32) -> Reply {
        replied(|reply| call(self.0.get(), reply))
    }

    /// A handle with an empty workspace, or with none if the reply has a fault.
    pub fn open(options: &Options) -> (Handle, Reply) {
        assert_version();
        let handle = Handle::empty();
        // SAFETY: the handle is AECP_HANDLE, and no other thread has it.
        let reply = handle.with(|at, reply| unsafe { aecp_open(options, at, reply) });
        (handle, reply)
    }

    /// The same with the samples of a stream.
    pub fn load(options: &Options, count: u64, coded: &[u8]) -> (Handle, Reply) {
        assert_version();
        let handle = Handle::empty();
        // SAFETY: as in `open`; pointer and length are those of a live slice.
        let reply = handle.with(|at, reply| unsafe {
            aecp_load(options, count, coded.as_ptr(), coded.len(), at, reply)
        });
        (handle, reply)
    }

    pub fn append(&mut self, values: &[i64]) -> Reply {
        // SAFETY: the handle is the library's own since `open` or `load`; pointer and length are
        // those of a live slice. The type isn't `Sync` and no call runs another, so one thread at a
        // time has the handle.
        self.with(|at, reply| unsafe { aecp_append(at, values.as_ptr(), values.len(), reply) })
    }

    pub fn truncate(&mut self, count: u64) -> Reply {
        // SAFETY: as in `append`.
        self.with(|at, reply| unsafe { aecp_truncate(at, count, reply) })
    }

    pub fn remove(&mut self, first: u64, len: u64) -> Reply {
        // SAFETY: as in `append`.
        self.with(|at, reply| unsafe { aecp_remove(at, first, len, reply) })
    }

    pub fn overwrite(&mut self, first: u64, values: &[i64]) -> Reply {
        // SAFETY: as in `append`.
        self.with(|at, reply| unsafe {
            aecp_overwrite(at, first, values.as_ptr(), values.len(), reply)
        })
    }

    pub fn insert(&mut self, first: u64, values: &[i64]) -> Reply {
        // SAFETY: as in `append`.
        self.with(|at, reply| unsafe {
            aecp_insert(at, first, values.as_ptr(), values.len(), reply)
        })
    }

    pub fn apply(&mut self, script: &[u8]) -> EditReply {
        let at = self.0.get();
        // SAFETY: as in `append`.
        replied(|reply| unsafe { aecp_apply(at, script.as_ptr().cast(), script.len(), reply) })
    }

    pub fn read(&self, first: u64, len: u64, out: &mut [i64]) -> Reply {
        // SAFETY: as in `append`; `out` is an exclusive borrow.
        self.with(|at, reply| unsafe {
            aecp_read(at, first, len, out.as_mut_ptr(), out.len(), reply)
        })
    }

    pub fn write(&self, out: &mut [u8]) -> Reply {
        // SAFETY: as in `read`.
        self.with(|at, reply| unsafe { aecp_write(at, out.as_mut_ptr(), out.len(), reply) })
    }

    pub fn size(&self) -> u64 {
        // SAFETY: as in `append`.
        unsafe { aecp_size(self.0.get()) }
    }

    pub fn calls(&self) -> u64 {
        // SAFETY: as in `append`.
        unsafe { aecp_calls(self.0.get()) }
    }
}

/// A coder that takes samples in pieces.
pub struct Coder(CHandle);

// SAFETY: as for `Handle`.
unsafe impl Send for Coder {}

impl Drop for Coder {
    fn drop(&mut self) {
        // SAFETY: as in the `drop` of `Handle`.
        unsafe { aecp_coder_close(&mut self.0) }
    }
}

impl Coder {
    /// An open coder, or one that isn't open if the reply has a fault.
    pub fn open(options: &Options) -> (Coder, Reply) {
        assert_version();
        let mut coder = Coder(AECP_HANDLE);
        // SAFETY: the coder is AECP_CODER, and no other thread has it.
        let reply = replied(|reply| unsafe { aecp_coder_open(options, &mut coder.0, reply) });
        (coder, reply)
    }

    pub fn feed(&mut self, samples: &[u8]) -> Reply {
        // SAFETY: the coder is the library's own since `open`, and is borrowed exclusively; pointer
        // and length are those of a live slice.
        replied(|reply| unsafe {
            aecp_coder_feed(&mut self.0, samples.as_ptr().cast(), samples.len(), reply)
        })
    }

    pub fn finish(&mut self) -> Reply {
        // SAFETY: as in `feed`.
        replied(|reply| unsafe { aecp_coder_finish(&mut self.0, reply) })
    }

    pub fn take(&mut self, out: &mut [u8]) -> Reply {
        // SAFETY: as in `feed`; `out` is an exclusive borrow.
        replied(|reply| unsafe { aecp_coder_take(&mut self.0, out.as_mut_ptr(), out.len(), reply) })
    }
}

/// A reader of a stream, interval by interval.
pub struct Reader(CHandle);

// SAFETY: as for `Handle`.
unsafe impl Send for Reader {}

impl Drop for Reader {
    fn drop(&mut self) {
        // SAFETY: as in the `drop` of `Handle`.
        unsafe { aecp_reader_close(&mut self.0) }
    }
}

impl Reader {
    /// An open reader, or one that isn't open if the reply has a fault.
    pub fn open(options: &Options, count: u64, coded: &[u8]) -> (Reader, Reply) {
        assert_version();
        let mut reader = Reader(AECP_HANDLE);
        let (at, len) = (coded.as_ptr(), coded.len());
        // SAFETY: the reader is AECP_READER, and no other thread has it; pointer and length are
        // those of a live slice, of which the library keeps a copy.
        let reply = replied(|reply| unsafe {
            aecp_reader_open(options, count, at, len, &mut reader.0, reply)
        });
        (reader, reply)
    }

    pub fn next(&mut self, out: &mut [u8]) -> Reply {
        // SAFETY: the reader is the library's own since `open`, and is borrowed exclusively, as
        // `out` is.
        replied(|reply| unsafe {
            aecp_reader_next(&mut self.0, out.as_mut_ptr().cast(), out.len(), reply)
        })
    }

    pub fn go_to(&mut self, interval: u64) -> Reply {
        // SAFETY: as in `next`.
        replied(|reply| unsafe { aecp_reader_go_to(&mut self.0, interval, reply) })
    }
}

#[cfg(test)]
mod tests {
    use super::*;

    #[test]
    fn a_newer_library_of_the_same_major_version_fits() {
        for newer in [0, 1, 99, 100, 101, 9_999 - VERSION % 10_000] {
            assert_fits(VERSION + newer);
        }
    }

    #[test]
    fn a_library_of_another_major_version_or_an_older_minor_one_panics() {
        for other in [0, VERSION - 10_000, VERSION - 100, VERSION + 10_000, 10 * VERSION] {
            let outcome = std::panic::catch_unwind(|| assert_fits(other));
            assert!(outcome.is_err(), "{other}");
        }
    }
}
