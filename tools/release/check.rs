//! Prints the first key of RFC 7914, section 12, by the crate of the release.

use std::ops::ControlFlow;

fn main() -> Result<(), scrypt_c::Error> {
    let (mut key, params) = ([0; 64], scrypt_c::Params::new(4, 1, 1)?);
    scrypt_c::scrypt_in_steps(b"", b"", &params, &mut key, |_| ControlFlow::Continue(()))?;
    for byte in key {
        print!("{byte:02x}");
    }
    println!();
    Ok(())
}
