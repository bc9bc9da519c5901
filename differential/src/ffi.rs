//! The functions of `bindings/c/twine.h`, without the pointers, and the writer's by the second program's calls.

#[allow(dead_code, reason = "bench does not time every function")]
#[path = "../../bindings/rust/src/c.rs"]
mod c;

pub use c::*;
use reference::{Call, Mode, Scalar};

/// The mode of a number: any but `TOLERANT` is strict.
pub fn mode(number: u32) -> Mode {
    if number == TOLERANT {
        Mode::Tolerant
    } else {
        Mode::Strict
    }
}

/// Makes a call of the writer, by the one function that twine.h has for it.
#[inline(always)]
pub fn call(state: &mut [u64; STATE], call: Call<'_>, out: &mut [u8], starts: &mut [u32]) -> u32 {
    match call {
        Call::Scalar(Scalar::False) => write_bool(state, false, out, starts),
        Call::Scalar(Scalar::True) => write_bool(state, true, out, starts),
        Call::Scalar(Scalar::Null) => write_null(state, out, starts),
        Call::Integer(value) => write_integer(state, value, out, starts),
        Call::Float32(bits) => write_float32(state, bits, out, starts),
        Call::Float64(bits) => write_float64(state, bits, out, starts),
        Call::Text(text) => write_text(state, text, out, starts),
        Call::Bytes(bytes) => write_bytes(state, bytes, out, starts),
        Call::Variant0(index) => write_variant(state, index, out, starts),
        Call::Reference(at) => write_reference(state, at as usize, out, starts),
        Call::Pointer(at) => write_pointer(state, at as usize, out, starts),
        Call::Array(items) => open_array(state, items, out, starts),
        Call::Map(pairs) => open_map(state, pairs, out, starts),
        Call::Tag(tag) => open_tag(state, tag, out, starts),
        Call::Variant1(index) => open_variant1(state, index, out, starts),
        Call::VariantN(index, items) => open_variant_n(state, index, items, out, starts),
        Call::Close(at) => close(state, at as usize, out, starts),
    }
}
