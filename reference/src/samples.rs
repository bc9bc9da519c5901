//! Sample lines and their answers.
//!
//! ```text
//! tokens HEX                the tokens of a region: offset, kind, n, items, first and end of each
//! read AT FILE              the value at AT: its name, then its numbers
//! skip AT FILE              where the value at AT ends
//! item AT INDEX FILE        the offset of an item
//! follow AT FILE            the offset that pointers lead to, and the pointers met
//! lookup AT KEY FILE        the offset of the value of a key
//! body AT FILE              the first offset and the length of a body, and its bytes
//! check WORDS FILE          the count of values and the entry; then the table of starts
//! depths WORDS WORDS FILE   the same, then the table of depths
//! write ROOM WORDS CALL ..  the answers of a new writer's calls, its bytes, its starts, and what check says of them
//! ```
//!
//! Bytes are in hex, none of them are `-`; numbers are decimal, and one that is too large counts as the largest. A line that
//! begins with `#` is its own answer, and a line that is not a query is answered by `?`.

mod calls;
mod words;

use std::fmt::{Display, Write};

use reference::query::{Body, Followed};
use reference::{Checked, Error, Mode, Scalar, Token, Value};
use words::{bytes, hex, number};

/// "The program stays strict."
const MODE: Mode = Mode::Strict;

/// The words of a table at most.
const MOST_WORDS: u64 = 32;

/// What each word of a table holds before it is lent.
const JUNK_WORD: u32 = 0xaaaa_aaaa;

/// A line's answer, after the line itself.
pub fn answer(line: &str) -> String {
    if line.starts_with('#') {
        return line.to_owned();
    }
    let words: Vec<&str> = line.split(' ').collect();
    let answer = query(&words).unwrap_or_else(|| "?".to_owned());
    format!("{line}: {answer}")
}

/// The answer of a query, if the words are one.
fn query(words: &[&str]) -> Option<String> {
    Some(match *words {
        ["tokens", region] => tokens(&bytes(region)?),
        ["read", at, file] => {
            let value = reference::read(&bytes(file)?, MODE, number(at)?);
            result(value.map(|value| self::value(&value)))
        }
        ["skip", at, file] => result(reference::skip(&bytes(file)?, MODE, number(at)?)),
        ["item", at, index, file] => {
            let offset = reference::item(&bytes(file)?, MODE, number(at)?, number(index)?);
            result(offset)
        }
        ["follow", at, file] => {
            let followed = reference::follow(&bytes(file)?, MODE, number(at)?);
            result(followed.map(|Followed { offset, hops }| format!("{offset} {hops}")))
        }
        ["lookup", at, key, file] => {
            let offset = reference::lookup(&bytes(file)?, MODE, number(at)?, &bytes(key)?);
            result(offset)
        }
        ["body", at, file] => body(&bytes(file)?, number(at)?),
        ["check", starts, file] => {
            let mut starts = table(starts)?;
            let checked = reference::check(&bytes(file)?, MODE, &mut starts);
            format!("{}:{}", verdict(checked), list(&starts))
        }
        ["depths", starts, depths, file] => {
            let mut starts = table(starts)?;
            let mut depths = table(depths)?;
            let checked = reference::depths(&bytes(file)?, MODE, &mut starts, &mut depths);
            let checked = verdict(checked);
            format!("{checked}:{} /{}", list(&starts), list(&depths))
        }
        ["write", room, words, ref calls @ ..] => calls::answer(number(room)?, number_of_words(words)?, calls),
        _ => return None,
    })
}

fn tokens(region: &[u8]) -> String {
    let mut answer = String::new();
    for token in reference::tokens(region, MODE) {
        match token {
            Ok(token) => {
                let Token { at, kind, n, items, first, end } = token;
                // Writing into a string does not fail.
                let _ = write!(answer, "{at} {kind} {n} {items} {first} {end}; ");
            }
            Err(error) => return format!("{answer}{error}"),
        }
    }
    answer + "end"
}

/// A value's name and its numbers: n, the items, where they begin; for a body its first offset and its length.
fn value(value: &Value) -> String {
    match *value {
        Value::Scalar(Scalar::False) => "false".to_owned(),
        Value::Scalar(Scalar::True) => "true".to_owned(),
        Value::Scalar(Scalar::Null) => "null".to_owned(),
        Value::Integer(integer) => format!("integer {integer}"),
        Value::Float32(bits) => format!("float32 {bits}"),
        Value::Float64(bits) => format!("float64 {bits}"),
        Value::Text(Body { first, length }) => format!("text {first} {length}"),
        Value::Bytes(Body { first, length }) => format!("bytes {first} {length}"),
        Value::Array { items, first } => format!("array {items} {first}"),
        Value::Map { pairs, first } => format!("map {pairs} {} {first}", 2 * pairs),
        Value::Tag { tag, first } => format!("tag {tag} {first}"),
        Value::Variant0 { index } => format!("variant {index}"),
        Value::Variant1 { index, first } => format!("variant1 {index} {first}"),
        Value::VariantN { index, arguments, first } => format!("variantn {index} {arguments} {first}"),
        Value::Reference { target } => format!("reference {target}"),
        Value::Pointer { target } => format!("pointer {target}"),
    }
}

fn body(file: &[u8], at: u64) -> String {
    let part = hex(reference::body(file, MODE, at));
    let place = reference::body_place(file, MODE, at);
    result(place.map(|Body { first, length }| format!("{first} {length}{part}")))
}

/// What check or depths says of a file.
fn verdict(answer: Result<Checked, Error>) -> String {
    result(answer.map(|Checked { count, entry }| format!("ok {count} {entry}")))
}

fn result<T: Display>(answer: Result<T, Error>) -> String {
    match answer {
        Ok(answer) => answer.to_string(),
        Err(error) => error.to_string(),
    }
}

fn number_of_words(word: &str) -> Option<usize> {
    Some(number(word)?.min(MOST_WORDS) as usize)
}

/// A table of junk words.
fn table(words: &str) -> Option<Vec<u32>> {
    Some(vec![JUNK_WORD; number_of_words(words)?])
}

/// The words of a table, each after a space.
fn list(words: &[u32]) -> String {
    words.iter().map(|word| format!(" {word}")).collect()
}

#[cfg(test)]
mod tests {
    use super::answer;

    fn answered(line: &str, after: &str) {
        assert_eq!(answer(line), format!("{line}: {after}"));
    }

    #[test]
    fn queries() {
        answered("tokens 611f1b", "0 6 1 1 1 1; 1 1 42 0 3 3; end");
        answered("tokens 61", "LONG_LIST 1");
        answered("tokens 6f", "TRUNC 0");
        answered("read 0 6f006f", "LONG_LIST 2");
        answered("body 0 4261", "LONG_BODY 1");
        answered("read 0 7141611000", "map 1 2 1");
        answered("skip 18446744073709551616 1000", "OUTSIDE 18446744073709551615");
        answered("item 3 4 611f1b64f311121304", "NO_ITEM 3");
        answered("follow 1 10f000", "0 1");
        answered("lookup 0 - 71401000", "2");
        answered("body 0 52000100", "1 2 0001");
        answered("body 0 5000", "1 0");
        answered("check 3 1f1be100", "ok 2 2: 0 2 0");
        answered("check 0 -", "EMPTY 0:");
        answered("depths 2 3 1f1be100", "ok 2 2: 0 2 / 1 2 0");
        answered("check 99 0000", &format!("ok 1 0:{}", " 0".repeat(32)));
    }

    #[test]
    fn lines_that_are_no_queries() {
        assert_eq!(answer("# a remark: 1"), "# a remark: 1");
        for line in [
            "",
            "weigh 0 1000",
            "skip 0",
            "skip 0 10 00",
            "skip x 1000",
            "skip -1 1000",
            "skip 0 100",
            "skip 0 zz00",
            "write 8 x f",
        ] {
            answered(line, "?");
        }
    }

    #[test]
    fn calls() {
        answered("write 4 2 i42 r0 c2", "ok ok ok = 1f1be100 / 0 2 / ok 2 2");
        answered("write 9 2 f x q i f1 t", "ok ? ? ? ? ok = 0001 / 0 1");
        answered("write 9 1 f t@9 c0@1,1 c0@2,1", "ok ? NO_ROOM ok = 0000 / 0 / ok 1 0");
        answered("write 9 0", "= /");
        answered("write 99 9 i-9223372036854775809 v4294967296", "ok ok = 2ff0ffffffffffffff7faff0ffffff0f / 0 10");
    }
}
