//! The writer: what it writes is read back, and a refused call changes nothing.

use twine::ErrorKind::*;
use twine::{File, Value, Writer, LIMIT};

use crate::{error, parts, refused, Part};

#[test]
fn every_kind_is_read_back() {
    let mut w = Writer::new();
    let mut want = Vec::new();
    let mut wrote = |at: Result<usize, twine::Error>, part: Part| {
        want.push((at.unwrap(), part));
        at.unwrap()
    };
    let text = wrote(w.text("Gräf 🗄"), Part::Text("Gräf 🗄".into()));
    wrote(w.text(""), Part::Text(vec![]));
    wrote(w.bytes(&[]), Part::Bytes(vec![]));
    wrote(w.bytes(&[0, 255, 0xc3]), Part::Bytes(vec![0, 255, 0xc3]));
    wrote(w.null(), Part::Null);
    wrote(w.bool(false), Part::Bool(false));
    wrote(w.bool(true), Part::Bool(true));
    for value in [0, 14, 15, 16, -1, -15, -16, -17, i64::MAX, i64::MIN] {
        wrote(w.integer(value), Part::Integer(value));
    }
    // a signalling NaN with a payload, and its negative
    for bits in [0, 1, 0x7fa0_1234, 0xffa0_1234, 1.5f32.to_bits(), (-0f32).to_bits()] {
        wrote(w.float32_bits(bits), Part::Float32(bits));
        wrote(w.float32(f32::from_bits(bits)), Part::Float32(bits));
    }
    for bits in [0, 1, 0x7ff4_0000_dead_beef, 0xfff4_0000_dead_beef, 1.5f64.to_bits(), (-0f64).to_bits()] {
        wrote(w.float64_bits(bits), Part::Float64(bits));
        wrote(w.float64(f64::from_bits(bits)), Part::Float64(bits));
    }
    for index in [0, 15, u32::MAX] {
        wrote(w.variant(index), Part::Variant(index));
        wrote(w.open_variant1(index), Part::Variant1(index));
        wrote(w.null(), Part::Null);
        for items in [0, 1, 3] {
            wrote(w.open_variant_n(index, items), Part::VariantN(index, items));
            for _ in 0..items {
                wrote(w.bool(true), Part::Bool(true));
            }
        }
    }
    for tag in [0, 15, u64::MAX] {
        wrote(w.open_tag(tag), Part::Tag(tag));
        wrote(w.integer(7), Part::Integer(7));
    }
    wrote(w.open_array(0), Part::Array(0));
    let array = wrote(w.open_array(3), Part::Array(3));
    wrote(w.reference(text), Part::Reference(text));
    wrote(w.pointer(text), Part::Pointer(text));
    wrote(w.variant(9), Part::Variant(9));
    wrote(w.open_map(0), Part::Map(0));
    let map = wrote(w.open_map(2), Part::Map(2));
    wrote(w.pointer(text), Part::Pointer(text));
    wrote(w.pointer(array), Part::Pointer(array));
    wrote(w.text("b"), Part::Text(b"b".to_vec()));
    wrote(w.reference(array), Part::Reference(array));
    wrote(w.reference(map), Part::Reference(map));
    let pointer = wrote(w.pointer(map), Part::Pointer(map));
    let bytes = w.close(pointer).unwrap();

    let file = File::check(&bytes).unwrap();
    assert_eq!(parts(&file), want);
    assert_eq!(file.entry().offset(), pointer);
    let read = file.entry().follow();
    assert_eq!(read.offset(), map);
    assert_eq!(read.get("Gräf 🗄").unwrap().follow().offset(), array);
    let Value::Text(label) = file.value_at(text).unwrap().value() else { panic!() };
    assert_eq!(label, "Gräf 🗄");
    assert_eq!(label.to_str(), Ok("Gräf 🗄"));
    assert_eq!(label.to_string(), "Gräf 🗄");
}

#[test]
fn refused_calls_change_nothing() {
    let mut w = Writer::new();
    assert_eq!(w.close(0), Err(refused(BadTarget)));
    assert_eq!(w.pointer(0), Err(refused(BadTarget)));
    assert_eq!(w.reference(usize::MAX), Err(refused(BadTarget)));
    assert_eq!(w.text_bytes(&[0xc3, 0x28]), Err(refused(BadText)));
    assert_eq!(w.text_bytes(&[0xed, 0xa0, 0x80]), Err(refused(BadText)));
    assert_eq!(w.open_array(u64::MAX), Err(refused(NoRoom)));
    assert_eq!(w.open_map(1 << 63), Err(refused(NoRoom)));
    assert_eq!((w.written(), w.count(), w.pending(), w.is_closed()), (&[][..], 0, 0, false));

    let array = w.open_array(2).unwrap();
    assert_eq!(w.open_array(0), Err(refused(Owed)));
    assert_eq!(w.close(array), Err(refused(Owed)));
    assert_eq!(w.pointer(array), Err(refused(BadTarget)), "the array is still open");
    assert_eq!((w.written(), w.count(), w.pending()), (&[0x62][..], 0, 2));
    let item = w.integer(1).unwrap();
    w.integer(2).unwrap();
    assert_eq!(w.pointer(item), Err(refused(BadTarget)), "an item is no target");
    assert_eq!((w.written(), w.count(), w.pending()), (&[0x62, 0x11, 0x12][..], 1, 0));

    assert_eq!(w.close(array), Ok(vec![0x62, 0x11, 0x12, 0x02]));
    assert!(w.is_closed());
    assert_eq!(w.null(), Err(refused(Closed)));
    assert_eq!(w.open_map(0), Err(refused(Closed)));
    assert_eq!(w.text_bytes(&[0xff]), Err(refused(Closed)));
    assert_eq!(w.close(array), Err(refused(Closed)));
    assert_eq!((w.written(), w.count(), w.pending()), (&[][..], 0, 0));
}

#[test]
fn fixed_memory() {
    let mut w = Writer::fixed(6, 2);
    assert_eq!(w.open_array(5), Err(refused(NoRoom)));
    let text = w.text("ab").unwrap();
    assert_eq!(w.integer(15), Ok(3));
    assert_eq!(w.null(), Err(refused(Full)));
    assert_eq!(w.close(text), Ok(vec![0x42, b'a', b'b', 0x1f, 0x00, 0x04]));

    let mut w = Writer::fixed(6, 6);
    w.open_array(4).unwrap();
    // one byte is held back for each item and one for the close
    assert_eq!(w.integer(15), Err(refused(NoRoom)));
    for _ in 0..4 {
        w.null().unwrap();
    }
    assert_eq!(w.null(), Err(refused(NoRoom)));
    assert_eq!(w.close(0), Ok(vec![0x64, 2, 2, 2, 2, 4]));

    let mut w = Writer::fixed(0, 0);
    assert_eq!(w.null(), Err(refused(Full)));
    assert_eq!(w.close(0), Err(refused(BadTarget)));
    assert_eq!(Writer::fixed(0, 1).null(), Err(refused(NoRoom)));
    assert_eq!(Writer::fixed(usize::MAX, 1).null(), Ok(0));
}

#[test]
fn grows_to_the_limit() {
    let mut w = Writer::new();
    let body = vec![7; LIMIT / 2];
    let first = w.bytes(&body).unwrap();
    assert_eq!(w.bytes(&body), Err(refused(NoRoom)));
    assert_eq!(w.bytes(&vec![7; LIMIT]), Err(refused(NoRoom)));
    let room = LIMIT - w.written().len();
    let second = w.open_array(room as u64 - 9).unwrap();
    for _ in 0..room - 9 {
        w.null().unwrap();
    }
    // header and number of the array took 5 bytes; one is for the close
    while w.null().is_ok() {}
    assert_eq!(w.written().len(), LIMIT - 1);
    assert_eq!(w.close(first), Err(refused(NoRoom)), "no room for a pointer");
    let last = w.written().len() - 1;
    let bytes = w.close(last).unwrap();
    assert_eq!(bytes.len(), LIMIT);
    let file = File::check(&bytes).unwrap();
    assert_eq!(file.value_at(first).unwrap().body().unwrap(), body);
    assert_eq!(file.value_at(second).unwrap().items().unwrap().count(), room - 9);
    assert_eq!(file.value_at(second).unwrap().body().unwrap_err(), error(WrongKind, second));
}

#[test]
fn many_small_values() {
    let mut w = Writer::default();
    for value in 0..10_000 {
        w.integer(value).unwrap();
    }
    assert_eq!(w.count(), 10_000);
    let bytes = w.close(0).unwrap();
    let file = File::check(&bytes).unwrap();
    assert_eq!(file.count(), 10_001);
    let back = file.values().take(10_000).map(|value| value.value());
    assert!(back.zip(0..).all(|(value, n)| matches!(value, Value::Integer(m) if m == n)));
    assert_eq!(file.entry().follow().offset(), 0);
}
