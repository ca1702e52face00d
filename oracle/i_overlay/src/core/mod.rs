//! The overlay: fill rules, options, and a union that hands its paths back.

pub mod fill_rule;
pub mod integer;
pub mod overlay;
pub mod overlay_rule;
pub mod solver;
