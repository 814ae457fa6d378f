//! OpenCV and leptonica, each where its feature is on.

#[cfg(feature = "opencv")]
pub mod opencv {
    use crate::frames::kernel::Kernel;
    use musqerpi_tests::frames::Mode;
    use std::ffi::{c_char, c_int, CStr};

    extern "C" {
        fn bench_opencv_start() -> *const c_char;
        fn bench_opencv(
            from: *const u8,
            to: *mut u8,
            w: c_int,
            h: c_int,
            kernel: *const u8,
            kw: c_int,
            kh: c_int,
            erode: c_int,
            outside: c_int,
        );
    }

    /// Sets one thread, and answers the version.
    pub fn start() -> String {
        // SAFETY: the call answers a string that stays.
        let version = unsafe { CStr::from_ptr(bench_opencv_start()) };
        version.to_string_lossy().into_owned()
    }

    /// The grid taken through the kernel.
    pub fn apply(kernel: &Kernel, mode: Mode, width: usize, from: &[u8], to: &mut [u8]) {
        let shape = (mode.erode, mode.around.cell(), width);
        apply_among(kernel, shape, from, to);
    }

    /// The same by erosion or by dilation, with this value outside, and columns of the grid.
    pub fn apply_among(
        kernel: &Kernel,
        (erode, outside, width): (bool, u8, usize),
        from: &[u8],
        to: &mut [u8],
    ) {
        let height = from.len() / width;
        assert!(to.len() == from.len() && width * height == from.len());
        assert!(kernel.block.len() <= 256, "the other side has 256 bytes");
        let (w, h) = (width as c_int, height as c_int);
        let (kw, kh) = (kernel.w as c_int, kernel.h as c_int);
        let (erode, outside) = (c_int::from(erode), c_int::from(outside));
        let (from, to, cells) = (from.as_ptr(), to.as_mut_ptr(), kernel.block.as_ptr());
        // SAFETY: both grids have w × h bytes, and the kernel kw × kh, see above.
        unsafe { bench_opencv(from, to, w, h, cells, kw, kh, erode, outside) }
    }
}

#[cfg(feature = "leptonica")]
pub mod leptonica {
    use crate::frames::kernel::Kernel;
    use musqerpi_tests::frames::{Around, Mode};
    use std::ffi::{c_char, c_int, c_void, CStr};

    extern "C" {
        fn bench_leptonica_start() -> *const c_char;
        fn bench_leptonica_image(cells: *const u8, w: c_int, h: c_int) -> *mut c_void;
        fn bench_leptonica_cells(image: *mut c_void, cells: *mut u8, w: c_int, h: c_int);
        fn bench_leptonica_sel(kernel: *const u8, kw: c_int, kh: c_int) -> *mut c_void;
        fn bench_leptonica(
            from: *mut c_void,
            to: *mut c_void,
            sel: *mut c_void,
            erode: c_int,
            outside: c_int,
        );
        fn bench_leptonica_free(image: *mut c_void, sel: *mut c_void);
    }

    pub fn version() -> String {
        // SAFETY: the call answers a string that stays.
        let version = unsafe { CStr::from_ptr(bench_leptonica_start()) };
        version.to_string_lossy().into_owned()
    }

    /// An image of one bit a cell.
    pub struct Image(*mut c_void);

    /// A kernel as leptonica has it.
    pub struct Sel(*mut c_void);

    impl Image {
        pub fn of(cells: &[u8], width: usize) -> Image {
            let (w, h) = (width as c_int, (cells.len() / width) as c_int);
            // SAFETY: there are w × h cells.
            let image = unsafe { bench_leptonica_image(cells.as_ptr(), w, h) };
            assert!(!image.is_null(), "leptonica made no image");
            Image(image)
        }

        /// The image has as many cells as are asked for, in rows of this width.
        pub fn cells(&self, n: usize, width: usize) -> Vec<u8> {
            let mut cells = vec![9; n];
            let (w, h) = (width as c_int, (n / width) as c_int);
            // SAFETY: the image is live, and there are w × h cells.
            unsafe { bench_leptonica_cells(self.0, cells.as_mut_ptr(), w, h) };
            cells
        }
    }

    impl Sel {
        pub fn of(kernel: &Kernel) -> Sel {
            let (kw, kh) = (kernel.w as c_int, kernel.h as c_int);
            // SAFETY: the block has kw × kh bytes.
            let sel = unsafe { bench_leptonica_sel(kernel.block.as_ptr(), kw, kh) };
            assert!(!sel.is_null(), "leptonica made no kernel");
            Sel(sel)
        }
    }

    /// Whether leptonica has this. Cells outside are always free for dilation.
    pub fn has(mode: Mode) -> bool {
        mode.erode || mode.around == Around::Free
    }

    pub fn apply(sel: &Sel, mode: Mode, from: &Image, to: &mut Image) {
        assert!(has(mode), "leptonica hasn't {mode:?}");
        let (erode, outside) = (c_int::from(mode.erode), c_int::from(mode.around.cell()));
        // SAFETY: all three are live, and the two images are of one size.
        unsafe { bench_leptonica(from.0, to.0, sel.0, erode, outside) }
    }

    impl Drop for Image {
        fn drop(&mut self) {
            // SAFETY: the image is live, and nobody has it after this.
            unsafe { bench_leptonica_free(self.0, std::ptr::null_mut()) }
        }
    }

    impl Drop for Sel {
        fn drop(&mut self) {
            // SAFETY: the kernel is live, and nobody has it after this.
            unsafe { bench_leptonica_free(std::ptr::null_mut(), self.0) }
        }
    }
}
