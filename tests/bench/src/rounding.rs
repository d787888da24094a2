//! Runs with rounding: what is lent for them, a plain scan of the cells, and the figures by the paper.

use crate::plain::{Answer, Step};

/// The largest cell.
const CELL_MOST: u32 = 1_000_000;

/// The rounding of a run, and what its caller lends.
pub struct Lent {
    pub pipe: u16,
    pub base: u16,
    pub cells: Vec<u32>,
    pub figures: Vec<u32>,
}

impl Lent {
    /// For a run without rounding.
    pub fn none() -> Lent {
        Lent { pipe: 0, base: 0, cells: Vec::new(), figures: Vec::new() }
    }

    /// A cell for each token, of any size that is allowed, and figures that are not yet cleared.
    pub fn new(pipe: u16, base: u16, tokens: u16) -> Lent {
        let cell = |token: u16| u32::from(token) * 7919 % (CELL_MOST + 1);
        let cells: Vec<u32> = (0..tokens).rev().map(cell).collect();
        let figures = vec![u32::MAX; cells.len()];
        Lent { pipe, base, cells, figures }
    }

    /// The figures that these answers leave: each passed cell has the rise of the published sum.
    pub fn expected(&self, answers: &[Answer]) -> Vec<u32> {
        let mut figures = vec![0; self.cells.len()];
        let published =
            |sum: u32| (sum + (self.base_wide() - 1) / 2) / self.base_wide() * self.base_wide();
        let mut sum = 0;
        for answer in answers {
            match *answer {
                Answer::Finished(Step { pipe, token, .. }) if u16::from(pipe) == self.pipe => {
                    let after = sum + self.cells[usize::from(token)];
                    figures[usize::from(token)] = published(after) - published(sum);
                    sum = after;
                }
                _ => {}
            }
        }
        figures
    }

    fn base_wide(&self) -> u32 {
        u32::from(self.base)
    }
}

/// Whether no cell is too large, as plain Rust has it: a loop without a way out.
#[inline(never)]
pub fn scan(cells: &[u32]) -> bool {
    let mut fits = true;
    for &cell in cells {
        fits &= cell <= CELL_MOST;
    }
    fits
}
