//! With the feature `getrandom`, each hash has a salt of its own, of 16 bytes.
#![cfg(feature = "getrandom")]

use scrypt::password_hash::PasswordHasher;
use scrypt::{Params, Scrypt, phc::PasswordHash};

#[test]
fn salts() {
    let scrypt = Scrypt::from(Params::new(1, 1, 1).unwrap());
    let [a, b] = [(); 2].map(|()| {
        let hash: PasswordHash = scrypt.hash_password(b"pw").unwrap();
        hash.salt.unwrap()
    });
    assert!(a != b && a.len() == 16 && b.len() == 16, "{a:?} {b:?}");
}
