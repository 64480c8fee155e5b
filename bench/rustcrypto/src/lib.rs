//! RustCrypto's SHA-256 and HMAC, for a C program to call.
use core::slice::from_raw_parts;
use hmac::{Hmac, Mac};
use sha2::{Digest, Sha256};

/// Writes the digest of the `length` bytes at `message` to the 32 bytes at `digest`.
///
/// # Safety
/// Both must point to that many bytes, and `message` is not null even where `length` is 0.
#[no_mangle]
pub unsafe extern "C" fn rustcrypto_sha256(message: *const u8, length: usize, digest: *mut [u8; 32]) {
    *digest = Sha256::digest(from_raw_parts(message, length)).into();
}

/// Writes the MAC of the `length` bytes at `message` under the `key_length` bytes at `key` to the 32 bytes at `mac`.
///
/// # Safety
/// As above; `key` is not null either.
#[no_mangle]
pub unsafe extern "C" fn rustcrypto_hmac(
    key: *const u8,
    key_length: usize,
    message: *const u8,
    length: usize,
    mac: *mut [u8; 32],
) {
    let mut h = <Hmac<Sha256> as Mac>::new_from_slice(from_raw_parts(key, key_length)).unwrap();
    h.update(from_raw_parts(message, length));
    *mac = h.finalize().into_bytes().into();
}
