//! The project's static library.

/// Greater than any image and any text of a symbol.
const ROOM: usize = 4096;

unsafe extern "C" {
    fn relay_symbol_from_text(side: u16, text: *const u8, text_len: usize, image: *mut u8, image_len: usize) -> isize;
    fn relay_label_from_text(
        side: u16,
        id: u16,
        m: u8,
        n: u8,
        text: *const u8,
        text_len: usize,
        image: *mut u8,
        image_len: usize,
    ) -> isize;
    fn relay_image_from_words(side: u16, words: *const u8, words_len: usize, image: *mut u8, image_len: usize)
    -> isize;
    fn relay_text_from_image(image: *const u8, image_len: usize, text: *mut u8, text_len: usize) -> isize;
    fn relay_page_from_image(image: *const u8, image_len: usize, bytes: *mut u8, bytes_len: usize) -> isize;
}

/// A call that draws: of a side and bytes, into an image.
type Draw = unsafe extern "C" fn(u16, *const u8, usize, *mut u8, usize) -> isize;

/// A call that reads: of an image, into bytes.
type Read = unsafe extern "C" fn(*const u8, usize, *mut u8, usize) -> isize;

/// Bytes that a call of the library fills, used again and again.
pub struct Buffer {
    bytes: [u8; ROOM],
}

impl Buffer {
    pub fn new() -> Buffer {
        Buffer { bytes: [0; ROOM] }
    }

    /// What a call has written, by its answer: how many bytes, or a negative number for a refusal.
    fn found(&self, answer: isize) -> Option<&[u8]> {
        let length = usize::try_from(answer).ok()?;
        Some(&self.bytes[..length])
    }

    fn draw(&mut self, draw: Draw, side: u16, bytes: &[u8]) -> Option<&[u8]> {
        // SAFETY: each pointer and length are those of a slice that lives through the call.
        let length = unsafe { draw(side, bytes.as_ptr(), bytes.len(), self.bytes.as_mut_ptr(), ROOM) };
        self.found(length)
    }

    fn read(&mut self, read: Read, image: &[u8]) -> Option<&[u8]> {
        // SAFETY: as in `draw`.
        let length = unsafe { read(image.as_ptr(), image.len(), self.bytes.as_mut_ptr(), ROOM) };
        self.found(length)
    }

    pub fn symbol_from_text(&mut self, side: u16, text: &[u8]) -> Option<&[u8]> {
        self.draw(relay_symbol_from_text, side, text)
    }

    /// The label of page 1 of 2, under the ID 0.
    pub fn label_from_text(&mut self, side: u16, text: &[u8]) -> Option<&[u8]> {
        // SAFETY: as in `draw`.
        let length = unsafe {
            relay_label_from_text(side, 0, 1, 2, text.as_ptr(), text.len(), self.bytes.as_mut_ptr(), ROOM)
        };
        self.found(length)
    }

    pub fn image_from_words(&mut self, side: u16, words: &[u8]) -> Option<&[u8]> {
        self.draw(relay_image_from_words, side, words)
    }

    pub fn text_from_image(&mut self, image: &[u8]) -> Option<&[u8]> {
        self.read(relay_text_from_image, image)
    }

    pub fn page_from_image(&mut self, image: &[u8]) -> Option<&[u8]> {
        self.read(relay_page_from_image, image)
    }
}
