//! The exports of libsignature.a (include/signature.h).

#[link(name = "signature", kind = "static")]
extern "C" {
    pub fn signature_sha256(message: *const u8, length: usize, digest: *mut u8);
    pub fn signature_block_digest(contents: *const u8, length: usize, number: u32, digest: *mut u8);
    pub fn signature_is_signed(
        contents: *const u8,
        length: usize,
        golden: *const u8,
        golden_length: usize,
        number: u32,
    ) -> bool;
}

pub fn sha256(message: &[u8]) -> [u8; 32] {
    let mut digest = [0; 32];
    // SAFETY: the message is read, and 32 bytes are written.
    unsafe { signature_sha256(message.as_ptr(), message.len(), digest.as_mut_ptr()) };
    digest
}

pub fn block_digest(contents: &[u8], number: u32) -> [u8; 32] {
    let mut digest = [0; 32];
    // SAFETY: the contents are read, and 32 bytes are written.
    unsafe { signature_block_digest(contents.as_ptr(), contents.len(), number, digest.as_mut_ptr()) };
    digest
}

pub fn is_signed(contents: &[u8], golden: &[u8], number: u32) -> bool {
    // SAFETY: both are only read.
    unsafe { signature_is_signed(contents.as_ptr(), contents.len(), golden.as_ptr(), golden.len(), number) }
}
