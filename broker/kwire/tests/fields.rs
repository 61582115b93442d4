//! The protocol's primitive types. Expected bytes are worked out by hand from the protocol guide, 'Protocol Primitive Types'.

mod common;

use common::bytes_of;
use kwire::{Reader, Records, Uuid, WireError, Writer};

fn written(write: impl FnOnce(&mut Writer<'_>)) -> Vec<u8> {
    let mut writer = Writer::new();
    write(&mut writer);
    writer.finish().to_vec()
}

#[test]
fn numbers_are_big_endian() {
    let bytes = written(|w| {
        w.i8(-2);
        w.i16(0x0102);
        w.i32(-3);
        w.i64(0x0102_0304_0506_0708);
        w.u16(0xfffe);
        w.u32(0xffff_fffd);
        w.bool(true);
        w.bool(false);
        w.uuid(Uuid([9; 16]));
    });
    assert_eq!(bytes, bytes_of("fe 0102 fffffffd 0102030405060708 fffe fffffffd 01 00 09090909090909090909090909090909"));
    let mut r = Reader::new(&bytes);
    assert_eq!((r.i8(), r.i16(), r.i32(), r.i64()), (Ok(-2), Ok(0x0102), Ok(-3), Ok(0x0102_0304_0506_0708)));
    assert_eq!((r.u16(), r.u32(), r.bool(), r.bool()), (Ok(0xfffe), Ok(0xffff_fffd), Ok(true), Ok(false)));
    assert_eq!((r.uuid(), r.position(), r.remaining(), r.finish()), (Ok(Uuid([9; 16])), 39, 0, Ok(())));
    assert_eq!(r.i8(), Err(WireError::Ended { at: 39, needs: 1, has: 0 }));
    assert_eq!(Reader::new(&[2]).bool(), Ok(true), "all but 0 is true");
}

/// The numbers and bytes of Kafka's own test of varints (`ByteUtilsTest`), which are those of Protocol Buffers.
#[test]
fn varints() {
    let unsigned = [(0, "00"), (1, "01"), (63, "3f"), (64, "40"), (127, "7f"), (128, "8001"), (150, "9601"), (300, "ac02"), (8191, "ff3f")];
    let unsigned = unsigned.into_iter().chain([(8192, "8040"), (1_048_575, "ffff3f"), (u32::MAX, "ffffffff0f")]);
    for (number, hex) in unsigned {
        assert_eq!(written(|w| w.unsigned_varint(number)), bytes_of(hex));
        assert_eq!(Reader::new(&bytes_of(hex)).unsigned_varint(), Ok(number));
    }
    let signed = [(0, "00"), (-1, "01"), (1, "02"), (63, "7e"), (-64, "7f"), (64, "8001"), (-65, "8101"), (8191, "fe7f"), (-8192, "ff7f")];
    let signed = signed.into_iter().chain([(8192, "808001"), (1_048_575, "feff7f"), (i32::MAX, "feffffff0f"), (i32::MIN, "ffffffff0f")]);
    for (number, hex) in signed {
        assert_eq!(written(|w| w.varint(number)), bytes_of(hex));
        assert_eq!(Reader::new(&bytes_of(hex)).varint(), Ok(number));
        assert_eq!(written(|w| w.varlong(number.into())), bytes_of(hex));
        assert_eq!(Reader::new(&bytes_of(hex)).varlong(), Ok(number.into()));
    }
    for (number, hex) in [(i64::MAX, "feffffffffffffffff01"), (i64::MIN, "ffffffffffffffffff01")] {
        assert_eq!(written(|w| w.varlong(number)), bytes_of(hex));
        assert_eq!(Reader::new(&bytes_of(hex)).varlong(), Ok(number));
    }
}

#[test]
fn varints_that_are_too_long() {
    let bad = Err(WireError::BadVarint { at: 0 });
    assert_eq!(Reader::new(&bytes_of("ffffffff10")).unsigned_varint(), bad.map(|_: u8| 0));
    assert_eq!(Reader::new(&bytes_of("808080808000")).unsigned_varint(), bad.map(|_: u8| 0));
    assert_eq!(Reader::new(&bytes_of("8080808080")).varint(), bad.map(|_: u8| 0));
    assert_eq!(Reader::new(&bytes_of("80808080808080808002")).varlong(), bad.map(|_: u8| 0));
    assert_eq!(Reader::new(&bytes_of("8080808080808080808000")).varlong(), bad.map(|_: u8| 0));
    assert_eq!(Reader::new(&bytes_of("80")).unsigned_varint(), Err(WireError::Ended { at: 1, needs: 1, has: 0 }));
    assert_eq!(Reader::new(&bytes_of("8000")).unsigned_varint(), Ok(0), "longer than it need be, but no more than it may be");
}

#[test]
fn strings_in_both_forms() {
    for (flexible, hex) in [(false, "0005 6772c3bc6e 0000 ffff"), (true, "06 6772c3bc6e 01 00")] {
        let bytes = written(|w| {
            [Some("grün"), Some(""), None].into_iter().for_each(|it| w.nullable_string(flexible, it).unwrap());
        });
        assert_eq!(bytes, bytes_of(hex));
        let mut r = Reader::new(&bytes);
        assert_eq!((r.string(flexible), r.string(flexible)), (Ok("grün"), Ok("")));
        let at = r.position();
        assert_eq!(r.clone().nullable_string(flexible), Ok(None));
        assert_eq!(r.string(flexible), Err(WireError::Null { at }));
    }
    assert_eq!(Reader::new(&bytes_of("0001ff")).string(false), Err(WireError::NotUtf8 { at: 2 }));
    assert_eq!(Reader::new(&bytes_of("000561")).string(false), Err(WireError::Ended { at: 2, needs: 5, has: 1 }));
    assert_eq!(Reader::new(&bytes_of("8000")).nullable_string(false), Ok(None), "each negative length is a null");
}

#[test]
fn strings_have_a_greatest_length() {
    let (longest, longer) = ("x".repeat(32_767), "x".repeat(32_768));
    for flexible in [false, true] {
        let mut writer = Writer::new();
        writer.nullable_string(flexible, Some(&longest)).unwrap();
        let at = writer.len();
        assert_eq!(writer.nullable_string(flexible, Some(&longer)), Err(WireError::TooLong { at, length: 32_768 }));
        let bytes = writer.finish().to_vec();
        assert_eq!(Reader::new(&bytes).string(flexible), Ok(&longest[..]));
    }
    // 32,769 is 81 80 02 as a varint: a length of 32,768.
    let bytes = [&[0x81, 0x80, 0x02], longer.as_bytes()].concat();
    assert_eq!(Reader::new(&bytes).string(true), Err(WireError::TooLong { at: 0, length: 32_768 }));
}

#[test]
fn bytes_in_both_forms() {
    for (flexible, hex) in [(false, "00000002 00ff 00000000 ffffffff"), (true, "03 00ff 01 00")] {
        let bytes = written(|w| {
            [Some(&[0, 255][..]), Some(&[]), None].into_iter().for_each(|it| w.nullable_bytes(flexible, it).unwrap());
        });
        assert_eq!(bytes, bytes_of(hex));
        let mut r = Reader::new(&bytes);
        assert_eq!((r.bytes(flexible), r.bytes(flexible)), (Ok(&[0, 255][..]), Ok(&[][..])));
        let at = r.position();
        assert_eq!(r.clone().nullable_bytes(flexible), Ok(None));
        assert_eq!(r.bytes(flexible), Err(WireError::Null { at }));
    }
    assert_eq!(Reader::new(&bytes_of("7fffffff61")).bytes(false), Err(WireError::Ended { at: 4, needs: 0x7fff_ffff, has: 1 }));
    assert_eq!(Reader::new(&bytes_of("ffffffff0f61")).bytes(true), Err(WireError::Ended { at: 5, needs: 0xffff_fffe, has: 1 }));
}

#[test]
fn arrays_in_both_forms() {
    for (flexible, hex) in [(false, "00000002 0007 0008 00000000 ffffffff"), (true, "03 0007 0008 01 00")] {
        let bytes = written(|w| {
            for items in [Some(&[7i16, 8][..]), Some(&[]), None] {
                w.nullable_array(flexible, items, |w, it| {
                    w.i16(*it);
                    Ok(())
                })
                .unwrap();
            }
        });
        assert_eq!(bytes, bytes_of(hex));
        let mut r = Reader::new(&bytes);
        let mut next = || r.nullable_array(flexible, 2, |r| r.i16());
        assert_eq!((next(), next(), next()), (Ok(Some(vec![7, 8])), Ok(Some(vec![])), Ok(None)));
        r.finish().unwrap();
    }
    let (null, compact_null) = (bytes_of("ffffffff"), [0]);
    assert_eq!(Reader::new(&null).array(false, 2, |r| r.i16()), Err(WireError::Null { at: 0 }));
    assert_eq!(Reader::new(&compact_null).array(true, 2, |r| r.i16()), Err(WireError::Null { at: 0 }));
    let bytes = bytes_of("00000003 0007 0008 00");
    assert_eq!(Reader::new(&bytes).nullable_array(false, 2, |r| r.i16()), Err(WireError::TooMany { at: 0, count: 3, most: 2 }));
    let bytes = bytes_of("7fffffff");
    assert_eq!(Reader::new(&bytes).nullable_array(false, 0, |_| Ok(())), Err(WireError::TooMany { at: 0, count: 0x7fff_ffff, most: 0 }));
}

#[test]
fn tagged_fields_are_skipped() {
    // Two of them: tag 0 with 3 bytes, tag 300 with none; then an int8.
    let bytes = bytes_of("02 00 03 616263 ac02 00 05");
    let mut r = Reader::new(&bytes);
    r.tagged_fields(true).unwrap();
    assert_eq!((r.i8(), r.finish()), (Ok(5), Ok(())));
    let mut r = Reader::new(&bytes);
    r.tagged_fields(false).unwrap();
    assert_eq!(r.position(), 0);
    assert_eq!(Reader::new(&bytes_of("01 00 03 6162")).tagged_fields(true), Err(WireError::Ended { at: 3, needs: 3, has: 2 }));
    assert_eq!(Reader::new(&bytes_of("ffffffff0f")).tagged_fields(true), Err(WireError::Ended { at: 5, needs: 1, has: 0 }));
    assert_eq!((written(|w| w.tagged_fields(true)), written(|w| w.tagged_fields(false))), (vec![0], vec![]));
}

#[test]
fn records_are_lent_in_pieces() {
    let (long, longer) = (vec![1; 1000], vec![2; 2000]);
    let pieces: [&[u8]; 3] = [&long, b"short", &longer];
    for flexible in [false, true] {
        let mut writer = Writer::new();
        writer.i8(7);
        writer.records(flexible, Records::Pieces(&pieces)).unwrap();
        writer.i8(8);
        assert_eq!(writer.len(), 1 + if flexible { 2 } else { 4 } + 3005 + 1);
        let out = writer.finish();
        let slices = out.slices();
        assert_eq!(slices.len(), 5, "head, a piece, the short one, a piece, the end");
        assert!(slices[1].as_ptr() == long.as_ptr() && slices[3].as_ptr() == longer.as_ptr(), "they are where they were");

        let bytes = out.to_vec();
        assert_eq!((bytes.len(), out.is_empty()), (out.len(), false));
        let mut r = Reader::new(&bytes);
        assert_eq!(r.i8(), Ok(7));
        assert_eq!(r.bytes(flexible), Ok(&pieces.concat()[..]));
        assert_eq!((r.i8(), r.finish()), (Ok(8), Ok(())));
    }
    assert_eq!(Records::Pieces(&pieces), Records::Whole(&pieces.concat()));
    assert_ne!(Records::Pieces(&[]), Records::Null);
    assert_eq!((Records::Whole(b"x").whole(), Records::Null.whole(), Records::Pieces(&pieces).whole()), (Some(&b"x"[..]), None, None));
    assert_eq!((Records::Null.len(), Records::Pieces(&[]).len(), Records::Whole(b"").is_empty()), (None, Some(0), true));
}
