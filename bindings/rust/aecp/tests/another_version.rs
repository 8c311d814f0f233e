//! Calls of a library of another major version. tests/packages.py makes such a library.

use aecp::{decode, decode_range, edit, encode, Decoder, Encoder, Options, Workspace};
use std::panic::{catch_unwind, UnwindSafe};

/// Checks that a call panics because of the version.
fn check_panics<T>(name: &str, call: impl FnOnce(&Options) -> T + UnwindSafe) {
    let panic = catch_unwind(|| drop(call(&Options::new(8)))).expect_err(name);
    let text = panic.downcast_ref::<&str>().expect(name);
    assert!(text.contains("another version"), "{name}: {text}");
}

#[test]
#[ignore = "needs a library of another version"]
fn each_call_that_takes_options_panics() {
    check_panics("encode", |options| encode(&[0u8], options));
    check_panics("decode", |options| decode::<u8>(&[], Some(0), options));
    check_panics("decode_range", |options| decode_range::<u8>(&[], Some(0), 0, 0, options));
    check_panics("edit", |options| edit(&[], Some(0), "", options));
    check_panics("bound", |options| options.bound(1));
    check_panics("Workspace::new", Workspace::new);
    check_panics("Workspace::of_coded", |options| Workspace::of_coded(&[], Some(0), options));
    check_panics("Encoder::new", Encoder::new);
    check_panics("Decoder::new", |options| Decoder::<u8>::new(&[], Some(0), options));
}
