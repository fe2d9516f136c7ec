//! Times of the proved archive, as ratios to the same work done by the original Rust, or by the
//! hardware or the platform's library, in the same run.
//!
//! Both sides do the same work, refusals included, and are called through a pointer that the
//! compiler cannot see through, with the same signature, so that neither is inlined into the loop.
//! The best of several rounds counts.

#[allow(dead_code)]
#[path = "../oracle/src/compare/archive.rs"]
mod archive;
mod filter;
mod learners;
mod leaves;
mod summary;
mod timing;
mod writer;

fn main() {
    timing::head();
    leaves::time();
    filter::time();
    learners::time();
    writer::time();
    summary::time();
}
