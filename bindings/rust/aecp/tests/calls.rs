//! The calls of the crate over the linked library.

use aecp::{
    decode, decode_at, decode_range, edit, encode, offsets, ApplyError, Decoder, Edit, EditError,
    Encoder, Error, Options, Workspace,
};

/// A walk of samples of `bits` bits.
fn walk(len: usize, bits: u32) -> Vec<u32> {
    let mut state = 1u32;
    let mut at = 0u32;
    let mut out = Vec::with_capacity(len);
    for _ in 0..len {
        state = state.wrapping_mul(1_664_525).wrapping_add(1_013_904_223);
        at = at.wrapping_add((state >> 28).wrapping_sub(7)) & (u32::MAX >> (32 - bits));
        out.push(at);
    }
    out
}

#[test]
fn the_library_has_the_version_of_the_crate() {
    let (major, minor, patch) = aecp::version();
    assert_eq!(format!("{major}.{minor}.{patch}"), env!("CARGO_PKG_VERSION"));
}

#[test]
fn known_samples_have_the_known_code() {
    let options = Options::new(8).with_block_size(8).with_interval(2);
    let coded = encode(&[0u8, 1, 2, 3, 4, 5, 6, 7], &options).unwrap();
    assert_eq!(coded, [0x20, 0x09, 0x24, 0x92]);
    assert_eq!(decode::<u8>(&coded, Some(5), &options).unwrap(), [0, 1, 2, 3, 4]);
}

#[test]
fn each_width_comes_back() {
    for bits in 1..=32 {
        let samples = walk(3000, bits);
        let options = Options::new(bits);
        let stored: Vec<u8> =
            samples.iter().flat_map(|it| it.to_le_bytes()[..options.storage()].to_vec()).collect();
        let coded = encode(&stored, &options).unwrap();
        assert_eq!(decode::<u8>(&coded, Some(3000), &options).unwrap(), stored);
        assert_eq!(
            decode_range::<u8>(&coded, Some(3000), 1000, 77, &options).unwrap(),
            stored[1000 * options.storage()..1077 * options.storage()]
        );
    }
}

#[test]
fn each_type_comes_back() {
    let samples = walk(500, 32);
    let signed: Vec<i32> = samples.iter().map(|&it| it as i32).collect();
    let short: Vec<i16> = samples.iter().map(|&it| it as i16).collect();
    let wide = Options::new(32);
    assert_eq!(
        decode::<u32>(&encode(&samples, &wide).unwrap(), Some(500), &wide).unwrap(),
        samples
    );
    let wide = wide.with_signed(true);
    assert_eq!(decode::<i32>(&encode(&signed, &wide).unwrap(), Some(500), &wide).unwrap(), signed);
    let narrow = Options::new(16).with_signed(true);
    assert_eq!(
        decode::<i16>(&encode(&short, &narrow).unwrap(), Some(500), &narrow).unwrap(),
        short
    );
}

#[test]
fn another_type_is_refused() {
    assert_eq!(encode(&[1u32], &Options::new(16)), Err(Error::ElementType));
    assert_eq!(
        encode(&[1u16], &Options::new(16).with_msb_first(cfg!(target_endian = "little"))),
        Err(Error::ElementType)
    );
    assert_eq!(decode::<i8>(&[0], Some(1), &Options::new(8)), Err(Error::ElementType));
}

#[test]
fn a_stored_sample_has_one_to_four_bytes() {
    for bits in 1..=32 {
        let (plain, three_byte) = match bits {
            1..=8 => (1, 1),
            9..=16 => (2, 2),
            17..=24 => (4, 3),
            _ => (4, 4),
        };
        assert_eq!(Options::new(bits).storage(), plain, "{bits}");
        assert_eq!(Options::new(bits).with_three_byte(true).storage(), three_byte, "{bits}");
    }
}

#[test]
fn samples_of_three_bytes_are_taken_only_as_bytes() {
    let unsigned = Options::new(24).with_three_byte(true);
    let signed = unsigned.with_signed(true);
    let refused = Error::ElementType;
    assert_eq!(encode(&[7u32; 8], &unsigned), Err(refused));
    assert_eq!(encode(&[7i32; 8], &signed), Err(refused));
    assert_eq!(decode::<u32>(&[], Some(0), &unsigned), Err(refused));
    assert_eq!(decode::<i32>(&[], Some(0), &signed), Err(refused));
    assert_eq!(decode_range::<u32>(&[], Some(0), 0, 0, &unsigned), Err(refused));
    assert_eq!(Encoder::new(&unsigned).unwrap().feed(&[7u32; 8]), Err(refused));
    assert_eq!(Decoder::<u32>::new(&[], Some(0), &unsigned).unwrap_err(), refused);
}

#[test]
fn big_endian_samples_are_coded_as_bytes() {
    let samples = walk(500, 16);
    let stored: Vec<u8> = samples.iter().flat_map(|&it| (it as u16).to_be_bytes()).collect();
    let options = Options::new(16).with_msb_first(true);
    let coded = encode(&stored, &options).unwrap();
    assert_eq!(decode::<u8>(&coded, Some(500), &options).unwrap(), stored);
    let numbers: Vec<u8> = samples.iter().flat_map(|&it| (it as u16).to_le_bytes()).collect();
    assert_eq!(encode(&numbers, &Options::new(16)).unwrap(), coded);
}

#[test]
fn options_return_what_was_set() {
    let plain = Options::new(20);
    assert_eq!((plain.bits(), plain.block_size(), plain.interval()), (20, 16, 128));
    let flags = |it: &Options| {
        [
            it.signed(),
            it.msb_first(),
            it.three_byte(),
            it.preprocess(),
            it.pad(),
            it.restricted(),
            it.even_blocks(),
        ]
    };
    assert_eq!(flags(&plain), [false, false, false, true, false, false, false]);
    let setters: [fn(Options, bool) -> Options; 7] = [
        Options::with_signed,
        Options::with_msb_first,
        Options::with_three_byte,
        Options::with_preprocess,
        Options::with_pad,
        Options::with_restricted,
        Options::with_even_blocks,
    ];
    for (place, set) in setters.iter().enumerate() {
        let mut expected = flags(&plain);
        expected[place] = !expected[place];
        assert_eq!(flags(&set(plain, expected[place])), expected);
    }
    let sized = plain.with_block_size(32).with_interval(7);
    assert_eq!((sized.block_size(), sized.interval()), (32, 7));
}

#[test]
fn refusals_have_their_kind_and_place() {
    assert_eq!(encode(&[0u8], &Options::new(0)), Err(Error::Options { number: 1 }));
    assert_eq!(
        encode(&[0u8], &Options::new(8).with_block_size(10)),
        Err(Error::Options { number: 2 })
    );
    assert_eq!(encode(&[0u8, 1, 9], &Options::new(3)), Err(Error::Sample { index: 2 }));
    let options = Options::new(8);
    let coded = encode(&[7u8; 64], &options).unwrap();
    assert_eq!(
        decode_range::<u8>(&coded, Some(64), 60, 5, &options),
        Err(Error::Range { count: 64 })
    );
    assert_eq!(
        decode::<u8>(&coded[..1], Some(64), &options),
        Err(Error::Stream { number: 6, bit: 0 })
    );
    assert!(!Error::Memory.to_string().is_empty() && !Error::ElementType.to_string().is_empty());
}

#[test]
fn each_interval_is_decoded_from_its_offset_on() {
    let samples: Vec<u16> = walk(100, 12).iter().map(|&it| it as u16).collect();
    for pad in [false, true] {
        let options = Options::new(12).with_block_size(8).with_interval(2).with_pad(pad);
        let coded = encode(&samples, &options).unwrap();
        let begins = offsets(&coded, Some(100), &options).unwrap();
        assert_eq!(begins.len(), 7);
        for (place, &bit) in begins.iter().enumerate() {
            let rest = &samples[16 * place..];
            let (front, within) = ((bit / 8) as usize, bit % 8);
            for len in 0..=rest.len() {
                let count = Some(len as u64);
                assert_eq!(decode_at::<u16>(&coded, bit, count, &options).unwrap(), rest[..len]);
                let part: Vec<u16> = decode_at(&coded[front..], within, count, &options).unwrap();
                assert_eq!(part, rest[..len]);
            }
        }
    }
}

#[test]
fn bits_where_no_interval_begins_are_refused() {
    let options = Options::new(8);
    let coded = encode(&[7u8; 64], &options).unwrap();
    let bits = 8 * coded.len() as u64;
    assert_eq!(decode_at::<u8>(&coded, bits, Some(0), &options), Ok(vec![]));
    for bit in [bits + 1, u64::MAX] {
        assert_eq!(decode_at::<u8>(&coded, bit, Some(0), &options), Err(Error::Bit { bits }));
    }
    assert_eq!(
        decode_at::<u8>(&coded, 4, Some(0), &options.with_pad(true)),
        Err(Error::Bit { bits })
    );
    assert!(Error::Bit { bits }.to_string().contains(&bits.to_string()));
    assert_eq!(offsets(&coded[..1], Some(64), &options), Err(Error::Stream { number: 6, bit: 0 }));
    assert_eq!(offsets(&coded, None, &options.with_interval(0)), Err(Error::Options { number: 3 }));
}

#[test]
fn no_samples_have_an_empty_code() {
    let options = Options::new(16);
    assert_eq!(encode::<u16>(&[], &options).unwrap(), []);
    assert_eq!(decode::<u16>(&[], Some(0), &options).unwrap(), []);
    assert_eq!(decode::<u16>(&[], None, &options).unwrap(), []);
}

#[test]
fn a_few_bytes_decode_to_many_samples() {
    let options = Options::new(32).with_block_size(64).with_interval(4096);
    let zeros = vec![0u32; 6_000_000];
    let coded = encode(&zeros, &options).unwrap();
    assert!(coded.len() < 4000);
    assert_eq!(decode::<u32>(&coded, Some(6_000_000), &options).unwrap(), zeros);
    assert!(decode::<u32>(&coded, None, &options).unwrap().len() >= zeros.len());
}

#[test]
fn edits_are_those_of_a_vector() {
    let options = Options::new(16).with_block_size(8).with_interval(2);
    let mut list: Vec<i64> = walk(300, 16).iter().map(|&it| i64::from(it)).collect();
    let mut work = Workspace::new(&options).unwrap();
    assert!(work.is_empty());
    work.append(&list).unwrap();
    work.overwrite(100, &[1, 2, 3]).unwrap();
    list[100..103].copy_from_slice(&[1, 2, 3]);
    work.insert(7, &[9, 9]).unwrap();
    list.splice(7..7, [9, 9]);
    work.remove(20, 11).unwrap();
    list.drain(20..31);
    work.truncate(250).unwrap();
    list.truncate(250);
    assert_eq!(work.read(0, 250).unwrap(), list);
    assert_eq!(work.read(10, 0).unwrap(), []);
    assert_eq!(work.read(0, 251), Err(Error::Range { count: 250 }));
    assert_eq!(work.read(u64::MAX, u64::MAX), Err(Error::Range { count: 250 }));
    assert_eq!(work.overwrite(249, &[1, 2]), Err(Error::Range { count: 250 }));
    assert_eq!(work.insert(0, &[-1]), Err(Error::Sample { index: 0 }));
    assert!(work.calls() > 0);
    let again = Workspace::of_coded(&work.to_coded().unwrap(), Some(work.len()), &options).unwrap();
    assert_eq!(again.read(0, 250).unwrap(), list);
    assert!(Workspace::of_coded(&[0xff], Some(9), &options).is_err());
}

#[test]
fn edits_applied_together_are_those_of_a_vector() {
    let options = Options::new(16).with_signed(true).with_block_size(8).with_interval(2);
    let mut list: Vec<i64> = walk(300, 15).iter().map(|&it| i64::from(it)).collect();
    let mut work = Workspace::new(&options).unwrap();
    work.append(&list).unwrap();
    let (few, calls) = ([-32768, 2, 32767], work.calls());
    let edits = [
        Edit::Overwrite { first: 100, values: &few },
        Edit::Insert { first: 7, values: &few[..2] },
        Edit::Append { values: &[] },
        Edit::Remove { first: 20, len: 11 },
        Edit::Append { values: &few },
        Edit::Truncate { count: 293 },
    ];
    let coded = work.apply_all(&edits).unwrap();
    list[100..103].copy_from_slice(&few);
    list.splice(7..7, few[..2].iter().copied());
    list.drain(20..31);
    list.extend(few);
    list.truncate(293);
    assert_eq!(work.read(0, 293).unwrap(), list);
    assert_eq!((work.len(), work.calls()), (293, calls + coded));
    assert_eq!(work.apply_all(&[]), Ok(0));
}

#[test]
fn known_edits_have_the_known_code() {
    let options = Options::new(8).with_block_size(8).with_interval(2);
    let mut work = Workspace::new(&options).unwrap();
    work.append(&[0; 48]).unwrap();
    assert_eq!(work.apply_all(&[Edit::Overwrite { first: 20, values: &[1] }]), Ok(1));
    assert_eq!(work.to_coded().unwrap(), [0x00, 0x04, 0x40, 0x30, 0xC2, 0x00, 0x08]);
}

#[test]
fn a_refused_edit_of_a_list_is_named_and_nothing_changes() {
    let mut work = Workspace::new(&Options::new(8)).unwrap();
    work.append(&[1, 2, 3]).unwrap();
    let refusals = [
        (Edit::Truncate { count: 5 }, Error::Range { count: 4 }),
        (Edit::Remove { first: u64::MAX, len: u64::MAX }, Error::Range { count: 4 }),
        (Edit::Insert { first: 5, values: &[i64::MAX] }, Error::Range { count: 4 }),
        (Edit::Overwrite { first: 0, values: &[0, i64::MIN] }, Error::Sample { index: 1 }),
        (Edit::Append { values: &[0, 0, i64::MAX] }, Error::Sample { index: 2 }),
    ];
    for (refused, error) in refusals {
        let edits = [Edit::Append { values: &[4] }, refused, Edit::Truncate { count: u64::MAX }];
        let told = work.apply_all(&edits).unwrap_err();
        assert_eq!(told, ApplyError { index: Some(1), error });
        assert!(told.to_string().starts_with("edit 1: "));
        assert_eq!((work.read(0, 3).unwrap(), work.len(), work.calls()), (vec![1, 2, 3], 3, 1));
    }
}

#[test]
fn threads_pass_a_workspace_on() {
    let mut work = Workspace::new(&Options::new(8)).unwrap();
    for round in 0..4 {
        work = std::thread::spawn(move || {
            work.append(&[round]).unwrap();
            work
        })
        .join()
        .unwrap();
    }
    assert_eq!(work.read(0, 4).unwrap(), [0, 1, 2, 3]);
}

#[test]
fn pieces_are_coded_as_one_list() {
    let samples = walk(3000, 16);
    let options = Options::new(16).with_block_size(8).with_interval(4);
    let stored: Vec<u8> = samples.iter().flat_map(|it| it.to_le_bytes()[..2].to_vec()).collect();
    let whole = encode(&stored, &options).unwrap();
    for len in [1, 3, 64, 1000, 6000] {
        let mut encoder = Encoder::new(&options).unwrap();
        let mut coded = Vec::new();
        for piece in stored.chunks(len) {
            coded.extend(encoder.feed(piece).unwrap());
        }
        coded.extend(encoder.finish().unwrap());
        assert_eq!(coded, whole, "{len}");
    }
}

#[test]
fn a_refused_piece_is_refused_again() {
    assert_eq!(Encoder::new(&Options::new(0)).unwrap_err(), Error::Options { number: 1 });
    let mut encoder = Encoder::new(&Options::new(3)).unwrap();
    assert_eq!(encoder.feed(&[0u8, 1]).unwrap(), []);
    assert_eq!(encoder.feed(&[1u16]), Err(Error::ElementType));
    assert_eq!(encoder.feed(&[2u8, 9]), Err(Error::Sample { index: 3 }));
    assert_eq!(encoder.feed(&[0u8]), Err(Error::Sample { index: 3 }));
    assert_eq!(encoder.finish(), Err(Error::Sample { index: 3 }));
}

#[test]
fn intervals_are_decoded_in_turn() {
    let samples: Vec<i32> = walk(1000, 32).iter().map(|&it| it as i32).collect();
    let options = Options::new(32).with_signed(true).with_block_size(8).with_interval(8);
    let coded = encode(&samples, &options).unwrap();
    let mut decoder = Decoder::<i32>::new(&coded, Some(1000), &options).unwrap();
    let read: Vec<Vec<i32>> = decoder.by_ref().map(Result::unwrap).collect();
    assert_eq!(read.len(), 16);
    assert_eq!(read.concat(), samples);
    assert!(decoder.next().is_none());
    assert_eq!(decoder.go_to(15), Ok(960));
    assert_eq!(decoder.next(), Some(Ok(samples[960..].to_vec())));
    assert_eq!(decoder.go_to(u64::MAX), Ok(1000));
    assert!(decoder.next().is_none());
}

#[test]
fn a_cut_stream_ends_with_its_fault() {
    let options = Options::new(8).with_block_size(8).with_interval(2);
    let coded = encode(&(0..64).map(|it| it * 3).collect::<Vec<u8>>(), &options).unwrap();
    let cut = &coded[..coded.len() / 2];
    let whole = decode::<u8>(cut, Some(64), &options).unwrap_err();
    let mut decoder = Decoder::<u8>::new(cut, Some(64), &options).unwrap();
    let last = decoder.by_ref().last().unwrap();
    assert_eq!(last, Err(whole));
    assert!(decoder.next().is_none());
    assert_eq!(decoder.go_to(u64::MAX), Err(whole));
    assert_eq!(decoder.go_to(0), Ok(0));
    assert!(decoder.next().unwrap().is_ok());
    assert_eq!(Decoder::<u16>::new(&coded, None, &options).unwrap_err(), Error::ElementType);
}

#[test]
fn scripts_are_applied_whole_or_not() {
    let options = Options::new(16).with_block_size(8).with_interval(2);
    let samples: Vec<u16> = walk(100, 16).iter().map(|&it| it as u16).collect();
    let coded = encode(&samples, &options).unwrap();
    let script = "truncate 4\ninsert 0 5 6\n";
    let (edited, count) = edit(&coded, Some(100), script, &options).unwrap();
    assert_eq!(count, 6);
    let back: Vec<u16> = decode(&edited, Some(count), &options).unwrap();
    assert_eq!(back, [&[5, 6], &samples[..4]].concat());
    let long = format!("append{}", " 65535 0".repeat(5000));
    assert_eq!(edit(&coded, Some(100), long, &options).unwrap().1, 10100);
    let refused = edit(&coded, Some(100), "append 1\nturn 7\n", &options).unwrap_err();
    assert_eq!(refused, EditError { line: None, error: Error::Script { line: 2 } });
    assert!(refused.to_string().contains('2'));
    let refused = edit(&coded, Some(100), "append 1\nappend 65536\n", &options).unwrap_err();
    assert_eq!(refused, EditError { line: Some(2), error: Error::Sample { index: 0 } });
    assert!(refused.to_string().starts_with("line 2: "));
}

#[test]
fn a_refused_line_is_named() {
    let options = Options::new(8);
    for line in 1..=3 {
        let before = "append 7\n".repeat(line - 1);
        let refused = |last| edit(&[], Some(0), before.clone() + last, &options).unwrap_err();
        let (count, line) = (line as u64 - 1, line as u64);
        let error = Error::Range { count };
        assert_eq!(refused("remove 9 1\n"), EditError { line: Some(line), error });
        let error = Error::Sample { index: 1 };
        assert_eq!(refused("append 0 256\n"), EditError { line: Some(line), error });
        assert_eq!(refused("turn 7\n"), EditError { line: None, error: Error::Script { line } });
        assert!(refused("remove 9 1\n").to_string().starts_with(&format!("line {line}: ")));
    }
}
