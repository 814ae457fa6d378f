//! Kernels: sets of cells (i, j) with i and j from 0 to 15, each standing for the point
//! (i, j), as a block of bytes and as points.

use musqerpi_tests::reference::points::{bounds, of_mask, of_plan, Point};

#[cfg_attr(not(any(feature = "opencv", feature = "leptonica")), allow(dead_code))]
pub struct Kernel {
    pub points: Vec<(usize, usize)>,
    pub w: usize,
    pub h: usize,
    /// The block, row by row, 1 for a cell.
    pub block: Vec<u8>,
}

impl Kernel {
    /// The points have no x or y below 0; the block has w columns and h rows.
    fn of(points: &[Point], w: usize, h: usize) -> Kernel {
        let points: Vec<_> = points
            .iter()
            .map(|p| (p.0 as usize, p.1 as usize))
            .collect();
        let mut block = vec![0; w * h];
        for &(i, j) in &points {
            block[j * w + i] = 1;
        }
        Kernel {
            points,
            w,
            h,
            block,
        }
    }

    /// A mask, in its square of three by three.
    pub fn of_mask(mask: u32) -> Kernel {
        Kernel::of(&of_mask(mask), 3, 3)
    }

    /// The sum of a plan's stages, its offset left out.
    pub fn of_stages(plan: &[u32]) -> Kernel {
        let points = of_plan(&[&[plan[0], 0x4000_0f0f], &plan[2..]].concat());
        let (w, h) = bounds(&points).1;
        Kernel::of(&points, w as usize + 1, h as usize + 1)
    }
}
