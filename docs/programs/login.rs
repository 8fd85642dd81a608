// Enrols a password, and lets in whoever knows it: rustc login.rs -l pikhsen && ./login
use std::fs::File;
use std::io::{Error, ErrorKind, Read};
use std::os::raw::{c_char, c_uint, c_ulong, c_void};

// Of pikhsen.h.
extern "C" {
    fn pikhsen_argon2_encoded(
        kind: c_uint, version: c_uint, passes: c_uint, memory_kib: c_uint, lanes: c_uint, password: *const c_char,
        password_len: usize, salt: *const c_void, salt_len: usize, tag_len: usize, max_kib: c_uint, max_ops: c_ulong,
        out: *mut c_char, out_len: usize, text_len: *mut usize,
    ) -> c_uint;
    fn pikhsen_argon2_verify(
        text: *const c_char, text_len: usize, password: *const c_char, password_len: usize, max_kib: c_uint,
        max_ops: c_ulong,
    ) -> c_uint;
}

/// The text to store for a new account: 64 MiB, 3 passes, 4 lanes, which RFC 9106 recommends second.
fn enrol(password: &[u8]) -> Result<String, Error> {
    if password.is_empty() {
        return Err(Error::new(ErrorKind::InvalidInput, "no password"));
    }
    let mut salt = [0u8; 16];
    File::open("/dev/urandom")?.read_exact(&mut salt)?;
    let (mut room, mut len) = ([0u8; 121], 0); // PIKHSEN_ENCODED_ROOM(16, 32)
    let told = unsafe {
        pikhsen_argon2_encoded(
            2, 0x13, 3, 65536, 4, password.as_ptr().cast(), password.len(), salt.as_ptr().cast(), salt.len(), 32, 65536,
            1 << 18, room.as_mut_ptr().cast(), room.len(), &mut len,
        )
    };
    match told {
        0 => Ok(String::from_utf8_lossy(&room[..len]).into_owned()),
        _ => Err(Error::new(ErrorKind::Other, format!("pikhsen.h: status {told}"))),
    }
}

/// At most 1 GiB and 2^23 block functions, whoever wrote the text.
fn answer(text: &str, password: &[u8]) -> &'static str {
    let told = unsafe {
        pikhsen_argon2_verify(
            text.as_ptr().cast(), text.len(), password.as_ptr().cast(), password.len(), 1 << 20, 1 << 23,
        )
    };
    match told {
        0 => "welcome",
        16 => "not you",
        7 | 8 => "set a new password", // the text asks for more
        _ => "try again later",
    }
}

fn main() -> Result<(), Error> {
    let text = enrol(b"correct horse")?;
    println!("{}..", &text[..30]);
    println!("{}", answer(&text, b"correct horse"));
    println!("{}", answer(&text, b"battery staple"));
    Ok(())
}
