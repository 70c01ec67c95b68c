//! The forms of a value that a consumer folds.

/// On which rows a value holds, and so the weight that is applied to it.
#[derive(Clone, Copy, Debug, PartialEq, Eq)]
pub enum Form {
    /// On every row: none.
    Plain,
    /// On every row but the last: `z_last`.
    Transition,
    /// On the first row: `lagrange_basis_first`.
    FirstRow,
    /// On the last row: `lagrange_basis_last`.
    LastRow,
}

impl Form {
    /// The forms.
    pub const ALL: [Self; 4] = [Self::Plain, Self::Transition, Self::FirstRow, Self::LastRow];
}
