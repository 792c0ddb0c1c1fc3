//! The C library `libsubsetter` from the crate `subsetter`: the calls of `bindings/c/subsetter.h`, with the same statuses as
//! the library that is proved as it is built.
//!
//! All `unsafe` code of the bindings in Rust is in this package. What it trusts is what the header requires of a caller:
//! pointers with their counts, and buffers that overlap nothing.
//!
//! - A list is read by its pointer and its count; with a count of 0 the pointer may be anything, null included ([`buffers`]).
//! - Nothing is written but through [`buffers`], after the answer is whole.
//! - All memory is C's `malloc`, so that `subsetter_free` can give it back by `free` ([`heap`]). The crate takes it by calls
//!   that report refused memory; nothing here takes memory.
//! - No panic reaches the caller ([`calls`]).

#![warn(missing_docs)]
#![deny(unsafe_op_in_unsafe_fn)]

#[cfg(not(panic = "unwind"))]
compile_error!("a panic is caught before it reaches C, so the profile has to say panic = \"unwind\"");

mod buffers;
mod calls;
mod fonts_for_pdf;
mod heap;
mod making;
mod options;
mod runs;
mod status;
#[cfg(test)]
mod tests;
mod whole_fonts;
