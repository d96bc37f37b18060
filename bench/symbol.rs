//! Sizes, texts that fill them, and images with wrong codewords.

use crate::softcairn::Buffer;

/// A square symbol size (ISO/IEC 16022, clause 5.5).
#[derive(Clone, Copy)]
pub struct Size {
    pub side: u16,
    pub data_words: usize,
    pub check_words: usize,
    pub blocks: usize,
}

/// The sizes that are measured.
pub const SIZES: [Size; 3] = [
    Size { side: 10, data_words: 3, check_words: 5, blocks: 1 },
    Size { side: 52, data_words: 204, check_words: 84, blocks: 2 },
    Size { side: 132, data_words: 1304, check_words: 496, blocks: 8 },
];

/// The codewords of a label's head.
pub const HEAD_WORDS: usize = 4;

/// A generator of numbers that are the same in each run (a linear congruence modulo 2^64).
struct Numbers(u64);

impl Numbers {
    fn below(&mut self, bound: usize) -> usize {
        self.0 = self.0.wrapping_mul(6_364_136_223_846_793_005).wrapping_add(1_442_695_040_888_963_407);
        (self.0 >> 33) as usize % bound
    }
}

impl Size {
    /// The most wrong codewords of one block that can be corrected.
    pub fn limit(self) -> usize {
        self.check_words / self.blocks / 2
    }

    /// As many digits as fill that many data codewords, two to a codeword.
    pub fn digits(self, words: usize) -> Vec<u8> {
        let mut numbers = Numbers(1);
        (0..2 * words).map(|_| b'0' + numbers.below(10) as u8).collect()
    }

    /// What is to be added, bit by bit, to the codewords of a symbol, so that `count` codewords of each block are
    /// wrong.
    fn wrong_words(self, count: usize) -> Vec<u8> {
        let words = self.data_words + self.check_words;
        let mut numbers = Numbers(2);
        let mut changes = vec![0; words];
        for block in 0..self.blocks {
            let mut places: Vec<usize> = (block..words).step_by(self.blocks).collect();
            for _ in 0..count {
                let place = places.swap_remove(numbers.below(places.len()));
                changes[place] = 1 + numbers.below(255) as u8;
            }
        }
        changes
    }

    /// The image with `count` wrong codewords in each block: the modules turned over are those in which the image of
    /// the wrong codewords differs from that of codewords 0.
    pub fn damaged(self, image: &[u8], count: usize) -> Vec<u8> {
        let zeros = vec![0; self.data_words + self.check_words];
        let changes = self.wrong_words(count);
        let mut light = Buffer::new();
        let light = light.image_from_words(self.side, &zeros).expect("the words of a size are drawn");
        let mut changed = Buffer::new();
        let changed = changed.image_from_words(self.side, &changes).expect("the words of a size are drawn");
        image.iter().zip(light).zip(changed).map(|((byte, a), b)| byte ^ a ^ b).collect()
    }

    fn is_dark(self, image: &[u8], row: usize, column: usize) -> bool {
        let width = usize::from(self.side) + 2;
        let stride = width.div_ceil(8);
        let raster = &image[image.len() - stride * width..];
        raster[row * stride + column / 8] >> (7 - column % 8) & 1 == 1
    }

    /// The modules of a PBM image, row by row from the top left, without the quiet zone.
    pub fn modules(self, image: &[u8]) -> Vec<bool> {
        let side = usize::from(self.side);
        (0..side * side).map(|i| self.is_dark(image, i / side + 1, i % side + 1)).collect()
    }

    /// A PBM image as grey pixels, dark 0 and light 255, `scale` pixels along a module.
    pub fn grey(self, image: &[u8], scale: usize) -> Vec<u8> {
        let width = (usize::from(self.side) + 2) * scale;
        let is_dark = |i: usize| self.is_dark(image, i / width / scale, i % width / scale);
        (0..width * width).map(|i| if is_dark(i) { 0 } else { 255 }).collect()
    }
}
