//! The streams of docs/FORMAT.md, and a few that follow from that page by hand. No expected value
//! is an output of the library.

use aecp::{
    decode, decode_range, edit, encode, offsets, Decoder, Encoder, Error, Options, Sample,
    Workspace,
};
use std::fmt::Debug;

/// The page's usual options: 8 bits, blocks of 8 samples, intervals of 2 blocks.
fn usual() -> Options {
    Options::new(8).with_block_size(8).with_interval(2)
}

/// Checks that each call codes these samples to `coded`, and decodes `coded` to these samples.
fn check<T: Sample + Into<i64> + Debug + PartialEq>(
    samples: &[T],
    coded: &[u8],
    options: &Options,
) {
    assert_eq!(encode(samples, options).unwrap(), coded);
    for len in [1, 3, samples.len()] {
        assert_eq!(coded_in_pieces(samples, len, options), coded, "pieces of {len}");
    }
    check_counts(samples, coded, options);
    check_workspace(samples, coded, options);
}

/// Returns the code of samples that are fed to an encoder in pieces of `len` samples.
fn coded_in_pieces<T: Sample>(samples: &[T], len: usize, options: &Options) -> Vec<u8> {
    let mut encoder = Encoder::new(options).unwrap();
    let mut coded = Vec::new();
    for piece in samples.chunks(len) {
        coded.extend(encoder.feed(piece).unwrap());
    }
    coded.extend(encoder.finish().unwrap());
    coded
}

/// Returns the samples that a decoder returns interval by interval.
fn in_intervals<T: Sample>(coded: &[u8], count: Option<u64>, options: &Options) -> Vec<T> {
    let decoder = Decoder::<T>::new(coded, count, options).unwrap();
    decoder.collect::<Result<Vec<_>, _>>().unwrap().concat()
}

/// Decodes the first and the last samples of a stream, for each number of them.
fn check_counts<T: Sample + Debug + PartialEq>(samples: &[T], coded: &[u8], options: &Options) {
    let all = samples.len() as u64;
    for count in 0..=samples.len() {
        let len = count as u64;
        let first: Vec<T> = decode(coded, Some(len), options).unwrap();
        assert_eq!(first, samples[..count]);
        assert_eq!(in_intervals::<T>(coded, Some(len), options), first);
        let last: Vec<T> = decode_range(coded, Some(all), all - len, len, options).unwrap();
        assert_eq!(last, samples[samples.len() - count..]);
    }
}

/// Checks the stream that a workspace of these samples writes, and the samples that are read from a
/// workspace of the stream.
fn check_workspace<T: Sample + Into<i64>>(samples: &[T], coded: &[u8], options: &Options) {
    let values: Vec<i64> = samples.iter().map(|&it| it.into()).collect();
    let mut work = Workspace::new(options).unwrap();
    work.append(&values).unwrap();
    assert_eq!(work.to_coded().unwrap(), coded);
    let count = values.len() as u64;
    let loaded = Workspace::of_coded(coded, Some(count), options).unwrap();
    assert_eq!(loaded.read(0, count).unwrap(), values);
}

#[test]
fn samples_of_one_byte_have_the_code_of_the_format() {
    let count_up: Vec<u8> = (0..10).collect();
    check(&count_up[..8], &[0x20, 0x09, 0x24, 0x92], &usual());
    check(&count_up[..8], &[0x5a, 0x92, 0x22, 0xaa], &usual().with_preprocess(false));
    let ten = usual().with_block_size(10).with_interval(1).with_even_blocks(true);
    check(&count_up, &[0x20, 0x09, 0x24, 0x92, 0x48], &ten);
    check(&[7u8; 5], &[0x00, 0x78], &usual());
    check(&[7u8, 7, 7, 7, 7, 7, 7, 7, 8], &[0x00, 0x78, 0x8f], &usual());
    let restricted = Options::new(2).with_block_size(8).with_interval(1).with_restricted(true);
    check(&[0u8, 0, 0, 0, 0, 0, 0, 3], &[0x80, 0x01, 0x80], &restricted);
    // A zero block, 0000 11111111 1.
    check(&[-1i8; 8], &[0x0f, 0xf8], &usual().with_signed(true));
}

#[test]
fn runs_of_zeros_have_the_code_of_the_format() {
    check(&[0u8; 17], &[0x00, 0x04, 0x00, 0x20], &usual());
    check(&[0u8; 17], &[0x00, 0x04, 0x00, 0x08], &usual().with_pad(true));
    check(&[0u8; 40], &[0x00, 0x00, 0x80], &usual().with_interval(64));
    check(&[0u8; 520], &[0x00, 0x00, 0x84], &usual().with_interval(128));
    let mut samples = [0u8; 48];
    check(&samples, &[0x00, 0x04, 0x00, 0x10, 0x00, 0x40], &usual());
    samples[20] = 1;
    check(&samples, &[0x00, 0x04, 0x40, 0x30, 0xc2, 0x00, 0x08], &usual());
    let mut samples = [0u8; 56];
    samples[48] = 1;
    check(&samples, &[0x00, 0x22, 0xf0], &usual().with_interval(8).with_preprocess(false));
}

#[test]
fn intervals_begin_at_the_bits_of_the_format() {
    let zeros = [0x00, 0x04, 0x00, 0x10, 0x00, 0x40];
    assert_eq!(offsets(&zeros, Some(48), &usual()).unwrap(), [0, 14, 28]);
    // The middle interval has 25 bits.
    let coded = [0x00, 0x04, 0x40, 0x30, 0xc2, 0x00, 0x08];
    assert_eq!(offsets(&coded, Some(48), &usual()).unwrap(), [0, 14, 39]);
    assert_eq!(offsets(&[], Some(0), &usual()).unwrap(), []);
}

#[test]
fn samples_of_two_and_four_bytes_have_the_code_of_the_format() {
    let of = |bits| Options::new(bits).with_block_size(8).with_interval(2);
    // A zero block is its identifier, the pattern of the reference sample, and a bit 1.
    check(&[7u16; 8], &[0x00, 0x00, 0x3c], &of(16));
    check(&[-1i16; 8], &[0x07, 0xff, 0xfc], &of(16).with_signed(true));
    check(&[7u32; 8], &[0x00, 0x00, 0x00, 0x00, 0x1e], &of(32));
    let ends: Vec<i32> = [i32::MIN, i32::MAX].repeat(4);
    let coded = [vec![0xfc, 0x00, 0x00, 0x00, 0x07], vec![0xff; 27], vec![0xf8]].concat();
    check(&ends, &coded, &of(32).with_signed(true));
}

#[test]
fn samples_of_three_bytes_have_the_code_of_the_format() {
    let options = Options::new(24).with_block_size(8).with_interval(2).with_three_byte(true);
    let coded = [0x00, 0x00, 0x00, 0x1e];
    for (options, sample) in [(options, [7, 0, 0]), (options.with_msb_first(true), [0, 0, 7])] {
        assert_eq!(encode(&sample.repeat(8), &options).unwrap(), coded);
        assert_eq!(decode::<u8>(&coded, Some(3), &options).unwrap(), sample.repeat(3));
    }
}

#[test]
fn a_count_drops_the_filler() {
    let (coded, options) = ([0x00, 0x78], usual());
    for (count, len) in [(Some(5), 5), (Some(8), 8), (None, 8)] {
        let sevens = vec![7u8; len];
        assert_eq!(decode::<u8>(&coded, count, &options).unwrap(), sevens);
        assert_eq!(decode_range::<u8>(&coded, count, 1, 2, &options).unwrap(), [7, 7]);
        assert_eq!(in_intervals::<u8>(&coded, count, &options), sevens);
        let len = len as u64;
        let refused = decode_range::<u8>(&coded, count, len, 1, &options);
        assert_eq!(refused, Err(Error::Range { count: len }));
        let work = Workspace::of_coded(&coded, count, &options).unwrap();
        assert_eq!((work.len(), work.read(0, len).unwrap()), (len, vec![7; len as usize]));
        assert_eq!(edit(&coded, count, "append 9\n", &options).unwrap().1, len + 1);
    }
}

/// Returns the error of each call that decodes.
fn errors(coded: &[u8], count: u64, options: &Options) -> [Error; 6] {
    let count = Some(count);
    let mut decoder = Decoder::<u8>::new(coded, count, options).unwrap();
    [
        decode::<u8>(coded, count, options).unwrap_err(),
        decode_range::<u8>(coded, count, 0, 0, options).unwrap_err(),
        Workspace::of_coded(coded, count, options).unwrap_err(),
        edit(coded, count, "", options).unwrap_err().error,
        decoder.find_map(Result::err).unwrap(),
        decoder.go_to(u64::MAX).unwrap_err(),
    ]
}

#[test]
fn a_bad_stream_is_refused_with_its_fault_and_bit() {
    let one_bit = Options::new(1).with_block_size(8).with_preprocess(false);
    let cut = |bit| Error::Stream { number: 6, bit };
    let value_too_large = |bit| Error::Stream { number: 7, bit };
    let run_too_long = |bit| Error::Stream { number: 8, bit };
    let cases: [(&[u8], u64, Options, Error); 8] = [
        (&[0x20, 0x09, 0x24], 8, usual(), cut(0)),
        (&[0x00], 8, usual(), cut(0)),
        (&[0x00, 0x78], 9, usual(), cut(13)),
        (&[0x00, 0x04], 17, usual().with_pad(true), cut(16)),
        (&[0x27, 0xf8], 8, one_bit, value_too_large(0)),
        // A zero block, 00001, and then the block of the stream above.
        (&[0x09, 0x3f, 0xc0], 16, one_bit, value_too_large(5)),
        (&[0x00, 0x02], 8, usual(), run_too_long(0)),
        // A run of 2 blocks, 0000 00000000 01, and then the run of the stream above.
        (&[0x00, 0x04, 0x00, 0x08], 32, usual(), run_too_long(14)),
    ];
    for (coded, count, options, expected) in cases {
        assert_eq!(errors(coded, count, &options), [expected; 6], "{coded:02x?}");
    }
}

#[test]
fn more_than_the_greatest_count_is_refused() {
    let refused = Error::Limit { number: 9, limit: 1 << 32 };
    for count in [(1 << 32) + 1, u64::MAX] {
        let (count, options) = (Some(count), usual());
        assert_eq!(decode::<u8>(&[], count, &options), Err(refused));
        assert_eq!(decode_range::<u8>(&[], count, 0, 0, &options), Err(refused));
        assert_eq!(Workspace::of_coded(&[], count, &options).unwrap_err(), refused);
        assert_eq!(edit(&[], count, "", &options).unwrap_err().error, refused);
        assert_eq!(Decoder::<u8>::new(&[], count, &options).unwrap_err(), refused);
    }
}
