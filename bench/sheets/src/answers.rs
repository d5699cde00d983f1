//! What the calls answer, the library's and the plain ones alike.

/// Whether a run settled, and the steps that it did.
#[derive(Clone, Copy, Debug, PartialEq, Eq)]
pub struct Ran {
    pub settled: bool,
    pub count: u64,
}

/// A run of a sheet, with its index and a budget.
pub type Run = fn(&mut [u16], &mut [u16], u64) -> Ran;

/// A step: rule, place, child and inner child.
#[derive(Clone, Copy, Debug, PartialEq, Eq)]
pub struct Redex {
    pub rule: usize,
    pub place: usize,
    pub i: usize,
    pub j: usize,
}
