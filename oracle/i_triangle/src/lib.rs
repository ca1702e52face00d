//! The given iTriangle files (iShape-Rust/iTriangle, commit a0046b598a, MIT OR
//! Apache-2.0: LICENSE-MIT and LICENSE-APACHE beside this folder), compiled
//! unchanged under their own paths; ../../CHECKSUMS lists them. This file and
//! `ours/` are not the original's.

// The given files are not all in use here, and stay as they are.
#![allow(dead_code, clippy::all)]

extern crate alloc;

pub mod index;

pub mod geom {
    pub mod centroid;
    pub mod point;
    pub mod triangle;
}

pub mod advanced {
    pub mod bitset;
    pub mod buffer;
    pub mod convex;
    pub mod delaunay;
}

pub mod int {
    pub mod minkowski;
    mod minkowski_sum;
    pub mod triangulation;
    pub mod validation;

    #[path = "../ours/triangulator.rs"]
    pub mod triangulator;

    #[path = "../ours/expose.rs"]
    pub mod expose;

    #[path = "../ours/reach.rs"]
    pub mod reach;
}
