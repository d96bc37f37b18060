//! The libraries of Debian that are installed. Each call of a maker gives a symbol and frees it, or reuses its memory.

use crate::symbol::Size;

/// A library that makes symbols.
pub trait Maker {
    fn name(&self) -> &'static str;

    /// Makes the symbol of a text, and tells whether it was made.
    fn make(&mut self, size: Size, text: &[u8]) -> bool;

    /// The modules of the symbol of a text, row by row from the top left.
    fn modules(&mut self, size: Size, text: &[u8]) -> Option<Vec<bool>>;
}

/// A library that reads symbols, as grey pixels.
pub trait Reader {
    fn name(&self) -> &'static str;

    /// Reads the text of the one symbol of a square image.
    fn read<'a>(&self, pixels: &[u8], width: usize, text: &'a mut [u8]) -> Option<&'a [u8]>;
}

/// The makers that are installed.
pub fn makers() -> Vec<Box<dyn Maker>> {
    vec![
        #[cfg(iec16022)]
        Box::new(iec16022::Iec16022 { chooses: false }),
        #[cfg(iec16022)]
        Box::new(iec16022::Iec16022 { chooses: true }),
        #[cfg(zint)]
        Box::new(zint::Zint::new()),
        #[cfg(dmtx)]
        Box::new(dmtx::Dmtx),
    ]
}

/// The readers that are installed.
pub fn readers() -> Vec<Box<dyn Reader>> {
    vec![
        #[cfg(zxing)]
        Box::new(zxing::Zxing { fixed_threshold: false }),
        #[cfg(zxing)]
        Box::new(zxing::Zxing { fixed_threshold: true }),
        #[cfg(dmtx)]
        Box::new(dmtx::Dmtx),
    ]
}

/// Which of the square sizes of sides 10 to 132 a size is, from 0, as libzint and libdmtx number them.
#[cfg(any(zint, dmtx))]
fn number_of(size: Size) -> std::ffi::c_int {
    const SIDES: [u16; 23] =
        [10, 12, 14, 16, 18, 20, 22, 24, 26, 32, 36, 40, 44, 48, 52, 64, 72, 80, 88, 96, 104, 120, 132];
    let number = SIDES.iter().position(|side| *side == size.side).expect("a square size");
    number as std::ffi::c_int
}

/// What a shim answers where it has read nothing.
#[cfg(any(zxing, dmtx))]
const REFUSED: usize = usize::MAX;

#[cfg(iec16022)]
mod iec16022 {
    use super::Maker;
    use crate::symbol::Size;
    use std::ffi::{c_char, c_int, c_void};
    use std::ptr::null_mut;

    unsafe extern "C" {
        fn iec16022ecc200(
            width: *mut c_int,
            height: *mut c_int,
            encoding: *mut *mut c_char,
            length: c_int,
            text: *const u8,
            encoded: *mut c_int,
            most: *mut c_int,
            check_words: *mut c_int,
        ) -> *mut u8;
        fn free(block: *mut c_void);
    }

    /// libiec16022, told that all of the text is in ASCII, or choosing its encodations itself.
    pub struct Iec16022 {
        pub chooses: bool,
    }

    impl Iec16022 {
        // The modules, which the caller frees.
        fn grid(&self, size: Size, text: &[u8]) -> *mut u8 {
            let side = size.side as c_int;
            let (mut width, mut height) = (side, side);
            let mut ascii = [b'A'; 4096];
            ascii[text.len()] = 0;
            let mut encoding = if self.chooses { null_mut() } else { ascii.as_mut_ptr().cast() };
            let grid = unsafe {
                iec16022ecc200(
                    &mut width,
                    &mut height,
                    &mut encoding,
                    text.len() as c_int,
                    text.as_ptr(),
                    null_mut(),
                    null_mut(),
                    null_mut(),
                )
            };
            if self.chooses {
                unsafe { free(encoding.cast()) };
            }
            grid
        }
    }

    impl Maker for Iec16022 {
        fn name(&self) -> &'static str {
            if self.chooses { "libiec16022, its own choice" } else { "libiec16022" }
        }

        fn make(&mut self, size: Size, text: &[u8]) -> bool {
            let grid = self.grid(size, text);
            unsafe { free(grid.cast()) };
            !grid.is_null()
        }

        // Its rows begin at the bottom.
        fn modules(&mut self, size: Size, text: &[u8]) -> Option<Vec<bool>> {
            let grid = self.grid(size, text);
            if grid.is_null() {
                return None;
            }
            let side = usize::from(size.side);
            let bytes = unsafe { std::slice::from_raw_parts(grid, side * side) };
            let modules = bytes.chunks(side).rev().flatten().map(|module| *module != 0).collect();
            unsafe { free(grid.cast()) };
            Some(modules)
        }
    }
}

#[cfg(zint)]
mod zint {
    use super::{Maker, number_of};
    use crate::symbol::Size;
    use std::ffi::{c_int, c_void};

    unsafe extern "C" {
        fn bench_zint_new() -> *mut c_void;
        fn bench_zint_free(symbol: *mut c_void);
        fn bench_zint_make(symbol: *mut c_void, number: c_int, text: *const u8, length: usize) -> c_int;
        fn bench_zint_side(symbol: *const c_void) -> c_int;
        fn bench_zint_module(symbol: *const c_void, row: c_int, column: c_int) -> c_int;
    }

    /// libzint, which chooses its encodations itself.
    pub struct Zint(*mut c_void);

    impl Zint {
        pub fn new() -> Zint {
            Zint(unsafe { bench_zint_new() })
        }
    }

    impl Drop for Zint {
        fn drop(&mut self) {
            unsafe { bench_zint_free(self.0) }
        }
    }

    impl Maker for Zint {
        fn name(&self) -> &'static str {
            "libzint"
        }

        fn make(&mut self, size: Size, text: &[u8]) -> bool {
            unsafe { bench_zint_make(self.0, number_of(size) + 1, text.as_ptr(), text.len()) != 0 }
        }

        fn modules(&mut self, size: Size, text: &[u8]) -> Option<Vec<bool>> {
            if !self.make(size, text) || unsafe { bench_zint_side(self.0) } != size.side as c_int {
                return None;
            }
            let side = size.side as c_int;
            let module = |i: c_int| unsafe { bench_zint_module(self.0, i / side, i % side) != 0 };
            Some((0..side * side).map(module).collect())
        }
    }
}

#[cfg(zxing)]
mod zxing {
    use super::{REFUSED, Reader};
    use std::ffi::c_int;

    unsafe extern "C" {
        fn bench_zxing_read(
            pixels: *const u8,
            width: c_int,
            fixed_threshold: bool,
            text: *mut u8,
            room: usize,
        ) -> usize;
    }

    /// ZXing with its pure option, else as it comes, or with a fixed threshold and no other tries too.
    pub struct Zxing {
        pub fixed_threshold: bool,
    }

    impl Reader for Zxing {
        fn name(&self) -> &'static str {
            if self.fixed_threshold { "ZXing, pure, fixed threshold" } else { "ZXing, pure" }
        }

        fn read<'a>(&self, pixels: &[u8], width: usize, text: &'a mut [u8]) -> Option<&'a [u8]> {
            let length = unsafe {
                bench_zxing_read(pixels.as_ptr(), width as c_int, self.fixed_threshold, text.as_mut_ptr(), text.len())
            };
            if length == REFUSED { None } else { Some(&text[..length]) }
        }
    }
}

#[cfg(dmtx)]
mod dmtx {
    use super::{Maker, REFUSED, Reader, number_of};
    use crate::symbol::Size;
    use std::ffi::c_int;
    use std::ptr::null_mut;

    unsafe extern "C" {
        fn bench_dmtx_make(number: c_int, text: *const u8, length: usize, pixels: *mut u8) -> c_int;
        fn bench_dmtx_read(pixels: *const u8, width: c_int, text: *mut u8, room: usize) -> usize;
    }

    /// libdmtx, told that the text is in ASCII.
    pub struct Dmtx;

    impl Maker for Dmtx {
        fn name(&self) -> &'static str {
            "libdmtx"
        }

        fn make(&mut self, size: Size, text: &[u8]) -> bool {
            unsafe { bench_dmtx_make(number_of(size), text.as_ptr(), text.len(), null_mut()) != 0 }
        }

        fn modules(&mut self, size: Size, text: &[u8]) -> Option<Vec<bool>> {
            let mut pixels = vec![255; usize::from(size.side).pow(2)];
            let side = unsafe { bench_dmtx_make(number_of(size), text.as_ptr(), text.len(), pixels.as_mut_ptr()) };
            (side == size.side as c_int).then(|| pixels.iter().map(|pixel| *pixel < 128).collect())
        }
    }

    impl Reader for Dmtx {
        fn name(&self) -> &'static str {
            "libdmtx"
        }

        fn read<'a>(&self, pixels: &[u8], width: usize, text: &'a mut [u8]) -> Option<&'a [u8]> {
            let length = unsafe { bench_dmtx_read(pixels.as_ptr(), width as c_int, text.as_mut_ptr(), text.len()) };
            if length == REFUSED { None } else { Some(&text[..length]) }
        }
    }
}
