//! The estimator of a track logger, proved: what [`Ekf`] and the learners do is what their contracts say,
//! for any bits. It is linked as an archive for x86-64, which the build script finds.
#![no_std]

mod track;

pub use track::*;
