//! Overlay rules. The given files ask for one only.

#[derive(Debug, Clone, Copy, PartialEq, Eq)]
pub enum OverlayRule {
    Subject,
}
