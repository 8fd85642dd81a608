//! A hash by the crate rust-argon2 (Debian: librust-rust-argon2-dev), with the parameters of bench/beside.py.
fn main() -> Result<(), argon2::Error> {
    let words: Vec<u32> = std::env::args().skip(1).map(|word| word.parse().expect("a number")).collect();
    let variant = argon2::Variant::Argon2id;
    let config = argon2::Config { variant, time_cost: words[0], mem_cost: 1 << words[1], ..Default::default() };
    for byte in argon2::hash_raw(b"password", b"somesalt", &config)? {
        print!("{byte:02x}");
    }
    Ok(())
}
