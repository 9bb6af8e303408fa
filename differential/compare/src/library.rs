//! Our static library, by its C declarations.

use crate::check::held::Replay;

unsafe extern "C" {
    /// int64_t tixorbel_replay(const uint8_t *file, size_t file_len, uint8_t *out, size_t out_len)
    fn tixorbel_replay(file: *const u8, file_len: usize, out: *mut u8, out_len: usize) -> i64;
}

pub struct Library;

impl Replay for Library {
    fn replay(&mut self, file: &[u8], out: &mut [u8]) -> i64 {
        // Both pointers are good for as many bytes as is said, and they do not overlap.
        unsafe { tixorbel_replay(file.as_ptr(), file.len(), out.as_mut_ptr(), out.len()) }
    }
}
