//! Fill rules. The stand-in fills nothing, so they are only carried about.

#[derive(Debug, Clone, Copy, PartialEq, Eq)]
pub enum FillRule {
    EvenOdd,
    NonZero,
}
