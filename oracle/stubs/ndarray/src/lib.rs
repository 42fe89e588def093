//! Stand-in for ndarray: an array of two dimensions, row after row.
use std::ops::{Index, IndexMut};
use std::slice::IterMut;

#[derive(Debug, Clone, PartialEq)]
pub struct Array2<T> {
    rows: usize,
    columns: usize,
    cells: Vec<T>,
}

impl<T: Copy + Default> Array2<T> {
    pub fn zeros((rows, columns): (usize, usize)) -> Self {
        Array2 { rows, columns, cells: vec![T::default(); rows * columns] }
    }
}

impl<T: Copy> Array2<T> {
    pub fn dim(&self) -> (usize, usize) {
        (self.rows, self.columns)
    }

    pub fn row_mut(&mut self, row: usize) -> RowMut<'_, T> {
        assert!(row < self.rows);
        RowMut(&mut self.cells[row * self.columns..(row + 1) * self.columns])
    }

    pub fn mapv<U>(&self, mut f: impl FnMut(T) -> U) -> Array2<U> {
        let cells = to_vec_mapped(self.cells.iter(), |x: &T| f(*x));
        Array2 { rows: self.rows, columns: self.columns, cells }
    }

    pub fn as_slice(&self) -> &[T] {
        &self.cells
    }
}

pub struct RowMut<'a, T>(&'a mut [T]);

impl<T> RowMut<'_, T> {
    pub fn as_slice_mut(&mut self) -> Option<&mut [T]> {
        Some(self.0)
    }

    pub fn iter_mut(&mut self) -> IterMut<'_, T> {
        self.0.iter_mut()
    }
}

impl<T> Index<usize> for RowMut<'_, T> {
    type Output = T;

    fn index(&self, i: usize) -> &T {
        &self.0[i]
    }
}

impl<T> IndexMut<usize> for RowMut<'_, T> {
    fn index_mut(&mut self, i: usize) -> &mut T {
        &mut self.0[i]
    }
}

/// Writes through a pointer, as ndarray does: its speed is what `bench` compares with.
fn to_vec_mapped<I: ExactSizeIterator, B>(iter: I, mut f: impl FnMut(I::Item) -> B) -> Vec<B> {
    let size = iter.len();
    let mut result = Vec::with_capacity(size);
    let mut out: *mut B = result.as_mut_ptr();
    let mut len = 0;
    iter.fold((), |(), x| unsafe {
        std::ptr::write(out, f(x));
        len += 1;
        result.set_len(len);
        out = out.offset(1);
    });
    result
}
