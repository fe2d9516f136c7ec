//! The original Rust as the judge: its four modules, unchanged, over our sine, cosine, arc tangent
//! and root.
//!
//! The four modules are not stored here: `oracle/judge` copies them beside this file, the filter a
//! second time, as `noting.rs`, with a line behind each gate value that notes it, and the learners a
//! second time, as `stepping.rs`: `fusion.rs` reads its sines and cosines from the tables, which
//! `oracle/judge` has written as `tables.rs`, and all other copies take those of the steps.
//! With `no_std` an `f32` has no `sin`, `cos`, `atan2`, `sqrt` or `powi` of its own, so that the
//! calls in the copied text go to the traits in `math`. The control build leaves `no_std` out, to
//! see that the search for libm's symbols then finds them.
#![cfg_attr(not(control), no_std)]

#[macro_use]
mod raw;
pub mod math;
pub mod noted;
pub mod steps;
pub mod table;
mod tables;

#[allow(unused_doc_comments)]
pub mod ekf;
pub mod filter;
#[allow(unused_imports)]
pub mod fusion;
#[allow(unused_doc_comments)]
pub mod noting;
#[allow(unused_imports)]
pub mod stepping;
pub mod transforms;

#[cfg(compare)]
mod compare;
