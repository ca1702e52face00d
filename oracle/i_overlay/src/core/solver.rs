//! The solver's settings. The stand-in solves nothing.

#[derive(Debug, Clone, Copy, Default)]
pub struct Solver;
