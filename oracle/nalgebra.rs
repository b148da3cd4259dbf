//! Stands in for the crate `nalgebra`: the one type that the original names, with no arithmetic.

use std::ops::{Index, IndexMut};

/// A table of entries, `columns` to a row.
pub struct DMatrix<T> {
    columns: usize,
    entries: Vec<T>,
}

impl DMatrix<f64> {
    /// All entries +0.0.
    pub fn zeros(rows: usize, columns: usize) -> Self {
        DMatrix {
            columns,
            entries: vec![0.0; rows * columns],
        }
    }

    fn place(&self, (row, column): (usize, usize)) -> usize {
        assert!(column < self.columns, "column {column} of {}", self.columns);
        row * self.columns + column
    }
}

impl Index<(usize, usize)> for DMatrix<f64> {
    type Output = f64;
    fn index(&self, at: (usize, usize)) -> &f64 {
        &self.entries[self.place(at)]
    }
}

impl IndexMut<(usize, usize)> for DMatrix<f64> {
    fn index_mut(&mut self, at: (usize, usize)) -> &mut f64 {
        let place = self.place(at);
        &mut self.entries[place]
    }
}
