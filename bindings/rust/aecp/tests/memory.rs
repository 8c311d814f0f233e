//! The memory that the crate allocates and frees, as Linux counts it for the process.
#![cfg(target_os = "linux")]

use aecp::{decode, decode_range, encode, Decoder, Encoder, Error, Options, Workspace};
use std::process::Command;
use std::sync::{Mutex, MutexGuard, PoisonError};
use std::{env, fs};

/// Waits until no other test runs. The others wait until the caller drops the result.
///
/// Each test measures the whole process, and a test that fails allocates some 50 MiB for its trace.
fn alone() -> MutexGuard<'static, ()> {
    static ALONE: Mutex<()> = Mutex::new(());
    ALONE.lock().unwrap_or_else(PoisonError::into_inner)
}

/// Returns the number of bytes that the process has in memory.
fn resident() -> u64 {
    let status = fs::read_to_string("/proc/self/status").unwrap();
    let line = status.lines().find(|it| it.starts_with("VmRSS:")).unwrap();
    let kib: u64 = line.split_whitespace().nth(1).unwrap().parse().unwrap();
    kib * 1024
}

/// Opens and drops objects of at least `least` bytes, one after the other. Fails if the process
/// grows by a quarter of the sum of their bytes.
fn check_freed<T>(least: usize, open: impl Fn() -> T) {
    const ROUNDS: u64 = 64;
    // `malloc` keeps some of the memory that the first objects free.
    drop((open(), open()));
    let before = resident();
    for _ in 0..ROUNDS {
        drop(open());
    }
    let grown = resident().saturating_sub(before);
    assert!(grown < ROUNDS * least as u64 / 4, "{ROUNDS} dropped objects: {grown} bytes more");
}

/// Returns samples of 32 bits that don't compress.
fn noise(len: usize) -> Vec<u32> {
    let mut state = 1u64;
    let mut next = || {
        state =
            state.wrapping_mul(6_364_136_223_846_793_005).wrapping_add(1_442_695_040_888_963_407);
        (state >> 32) as u32
    };
    (0..len).map(|_| next()).collect()
}

#[test]
fn a_dropped_workspace_is_freed() {
    let (_alone, options) = (alone(), Options::new(32));
    let coded = encode(&noise(1 << 18), &options).unwrap();
    check_freed(coded.len(), || Workspace::of_coded(&coded, None, &options).unwrap());
}

#[test]
fn a_dropped_decoder_is_freed() {
    let (_alone, options) = (alone(), Options::new(32));
    let coded = encode(&noise(1 << 18), &options).unwrap();
    check_freed(coded.len(), || Decoder::<u32>::new(&coded, None, &options).unwrap());
}

#[test]
fn a_dropped_encoder_is_freed() {
    let (_alone, options) = (alone(), Options::new(32).with_block_size(64).with_interval(4096));
    // An encoder keeps the samples of an interval that isn't complete.
    let samples = noise(64 * 4096 - 1);
    check_freed(4 * samples.len(), || {
        let mut encoder = Encoder::new(&options).unwrap();
        assert_eq!(encoder.feed(&samples).unwrap(), []);
        encoder
    });
}

/// The environment variable that is set in the limited process.
const IS_LIMITED: &str = "AECP_TEST_IS_LIMITED";

/// Runs a test of this file again, in a process whose address space is limited to 256 MiB.
fn run_in_256_mib(test: &str) {
    let limited = "ulimit -v 262144 && exec \"$@\"";
    let ran = Command::new("sh")
        .args(["-c", limited, "sh"])
        .arg(env::current_exe().unwrap())
        .args(["--exact", test])
        .env(IS_LIMITED, "1")
        .output()
        .unwrap();
    let said = String::from_utf8_lossy(&ran.stdout);
    assert!(ran.status.success() && said.contains("1 passed"), "{ran:?}");
}

#[test]
fn a_wrong_count_allocates_little() {
    let _alone = alone();
    if env::var_os(IS_LIMITED).is_none() {
        return run_in_256_mib("a_wrong_count_allocates_little");
    }
    // The stream has no bit 1, so its first coded data set never ends.
    let (coded, options) = (vec![0; 1 << 20], Options::new(32));
    let cut = Error::Stream { number: 6, bit: 0 };
    for count in [1 << 20, 1 << 31, 1 << 32] {
        assert_eq!(decode::<u32>(&coded, Some(count), &options), Err(cut));
        assert_eq!(decode_range::<u32>(&coded, Some(count), 0, count, &options), Err(cut));
        assert_eq!(Workspace::of_coded(&coded, Some(count), &options).unwrap_err(), cut);
        let mut decoder = Decoder::<u32>::new(&coded, Some(count), &options).unwrap();
        assert_eq!(decoder.next(), Some(Err(cut)));
        let work = Workspace::new(&options).unwrap();
        assert_eq!(work.read(0, count), Err(Error::Range { count: 0 }));
    }
}
