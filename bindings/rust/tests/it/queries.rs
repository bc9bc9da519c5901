//! The queries over bytes that were not checked.

use twine::query::{self, Kind, Token};
use twine::Error;
use twine::ErrorKind::*;

use crate::{error, hex, strict};

fn read(file: &[u8], at: usize) -> Result<Token, Error> {
    strict(|mode| query::read(file, mode, at))
}

fn skip(file: &[u8], at: usize) -> Result<usize, Error> {
    strict(|mode| query::skip(file, mode, at))
}

fn item(file: &[u8], at: usize, index: usize) -> Result<usize, Error> {
    strict(|mode| query::item(file, mode, at, index))
}

fn follow(file: &[u8], at: usize) -> Result<(usize, usize), Error> {
    strict(|mode| query::follow(file, mode, at))
}

fn lookup(file: &[u8], at: usize, key: impl AsRef<[u8]>) -> Result<usize, Error> {
    strict(|mode| query::lookup(file, mode, at, &key))
}

fn body(file: &[u8], at: usize) -> Result<&[u8], Error> {
    strict(|mode| query::body(file, mode, at))
}

#[test]
fn answers() {
    let file = hex("45 68 65 6c 6c 6f 61 f6 62 f8 f3 72 41 61 f5 41 78 01 06");
    assert_eq!(read(&file, 0), Ok(Token { kind: Kind::Text, number: 5, first: 1, count: 5 }));
    assert_eq!(read(&file, 11), Ok(Token { kind: Kind::Map, number: 2, first: 12, count: 4 }));
    assert_eq!(read(&file, 10), Ok(Token { kind: Kind::Pointer, number: 6, first: 11, count: 0 }));
    assert_eq!(skip(&file, 11), Ok(18));
    assert_eq!(item(&file, 8, 1), Ok(10));
    assert_eq!(follow(&file, 7), Ok((0, 1)));
    assert_eq!(follow(&file, 11), Ok((11, 0)));
    assert_eq!(lookup(&file, 11, "x"), Ok(17));
    assert_eq!(body(&file, 9), Ok(&b"hello"[..]));
}

#[test]
fn errors() {
    assert_eq!(read(&[], 0), Err(error(Empty, 0)));
    let file = hex("61 61 00 9f ff 02");
    assert_eq!(read(&file, 5), Err(error(Outside, 5)));
    assert_eq!(read(&file, usize::MAX), Err(error(Outside, usize::MAX)));
    assert_eq!(skip(&file, 0), Err(error(Nested, 1)));
    assert_eq!(item(&file, 1, 0), Ok(2));
    assert_eq!(item(&file, 1, 1), Err(error(NoItem, 1)));
    assert_eq!(item(&file, 2, 0), Err(error(WrongKind, 2)));
    assert_eq!(read(&file, 3), Err(error(Reserved, 3)));
    assert_eq!(read(&file, 4), Err(error(Trunc, 4)));
    assert_eq!(lookup(&file, 1, "a"), Err(error(WrongKind, 1)));
    assert_eq!(body(&file, 1), Err(error(WrongKind, 1)));
    assert_eq!(follow(&hex("f0 00"), 0), Err(error(BadTarget, 0)));
}

/// In the value that is asked for, in its items, and in what is followed.
#[test]
fn errors_past_the_regions_end() {
    // one text that is too long, as an item and as what a pointer leads to
    let item_cut = hex("62 45 61 00");
    assert_eq!(read(&item_cut, 0), Ok(Token { kind: Kind::Array, number: 2, first: 1, count: 2 }));
    assert_eq!(read(&item_cut, 1), Err(error(LongBody, 2)));
    assert_eq!(skip(&item_cut, 0), Err(error(LongBody, 2)));
    assert_eq!(item(&item_cut, 0, 0), Ok(1));
    assert_eq!(item(&item_cut, 0, 1), Err(error(LongBody, 2)));
    assert_eq!(item(&item_cut, 1, 0), Err(error(LongBody, 2)));
    let text_cut = hex("45 71 f1 10 00");
    assert_eq!(follow(&text_cut, 2), Err(error(LongBody, 1)));
    assert_eq!(body(&text_cut, 2), Err(error(LongBody, 1)));
    assert_eq!(lookup(&text_cut, 1, "a"), Err(error(LongBody, 1)));
    assert_eq!(lookup(&hex("71 45 61 00"), 0, "a"), Err(error(LongBody, 2)));
    let value_cut = hex("72 41 62 45 61 10 00");
    assert_eq!(lookup(&value_cut, 0, "a"), Err(error(LongBody, 4)));
    assert_eq!(lookup(&value_cut, 0, "b"), Ok(3));

    // a list and a map that are too long
    let list_cut = hex("64 71 f1 10 00");
    assert_eq!(read(&list_cut, 0), Err(error(LongList, 1)));
    assert_eq!(skip(&list_cut, 0), Err(error(LongList, 1)));
    assert_eq!(item(&list_cut, 0, 4), Err(error(LongList, 1)));
    assert_eq!(follow(&list_cut, 2), Err(error(LongList, 1)));
    assert_eq!(body(&list_cut, 2), Err(error(LongList, 1)));
    assert_eq!(lookup(&list_cut, 1, "a"), Err(error(LongList, 1)));
    assert_eq!(lookup(&hex("72 10 10 10 00"), 0, "a"), Err(error(LongList, 1)));
    assert_eq!(read(&hex("cf 00 02 10 00"), 0), Err(error(LongList, 3)));

    // a number, a float, and an item that is wanted; a tag's is not looked for by reading the tag
    let float_cut = hex("31 f0 00");
    assert_eq!(read(&float_cut, 0), Err(error(Trunc, 0)));
    assert_eq!(follow(&float_cut, 1), Err(error(Trunc, 0)));
    assert_eq!(body(&float_cut, 1), Err(error(Trunc, 0)));
    assert_eq!(lookup(&hex("71 10 1f 00"), 0, "a"), Err(error(Trunc, 2)));
    let wanted = hex("62 41 61 00");
    assert_eq!(skip(&wanted, 0), Err(error(Trunc, 3)));
    assert_eq!(item(&wanted, 0, 1), Err(error(Trunc, 3)));
    assert_eq!(lookup(&hex("71 41 61 00"), 0, "a"), Err(error(Trunc, 3)));
    assert_eq!(read(&hex("81 00"), 0), Ok(Token { kind: Kind::Tag, number: 1, first: 1, count: 1 }));
    assert_eq!(skip(&hex("81 00"), 0), Err(error(Trunc, 1)));
    assert_eq!(item(&hex("81 00"), 0, 0), Err(error(Trunc, 1)));
}

#[test]
fn keys_may_be_empty_or_pointers() {
    // a text "a", and a map { "": 1, pointer to "a": 2, "a": 3 }
    let file = hex("41 61 73 40 11 f4 12 41 61 13 07");
    assert_eq!(lookup(&file, 2, ""), Ok(4));
    assert_eq!(lookup(&file, 2, []), Ok(4));
    assert_eq!(lookup(&file, 2, "a"), Ok(6));
    assert_eq!(lookup(&file, 2, "b"), Err(error(NoItem, 2)));
}
