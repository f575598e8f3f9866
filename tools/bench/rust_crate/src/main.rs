//! Derives a key by the Rust crate scrypt for each line of its input, as tools/tests/worker.py describes.

use std::error::Error;
use std::io::stdin;
use std::time::Instant;

type Answer = Result<String, Box<dyn Error>>;

fn bytes(text: &str) -> Result<Vec<u8>, hex::FromHexError> {
    hex::decode(text.trim_start_matches('-'))
}

/// The minimum time of the repetitions and the key. Nothing else runs in this process, so the time is also given as its
/// processor time.
fn answer(line: &str) -> Answer {
    let words: Vec<_> = line.split(' ').collect();
    let [log_n, r, p, len, password, salt, repeats] = words[..] else {
        return Err("not seven words".into());
    };
    let params = scrypt::Params::new(log_n.parse()?, r.parse()?, p.parse()?)?;
    let (password, salt, mut key) = (bytes(password)?, bytes(salt)?, vec![0; len.parse()?]);
    let mut least = u128::MAX;
    for _ in 0..repeats.parse::<u32>()? {
        let begun = Instant::now();
        scrypt::scrypt(&password, &salt, &params, &mut key)?;
        least = least.min(begun.elapsed().as_nanos());
    }
    Ok(format!("ok {least} {least} {}", hex::encode(key)))
}

fn main() {
    for line in stdin().lines().map_while(Result::ok) {
        println!("{}", answer(&line).unwrap_or_else(|error| format!("err {error}")));
    }
}
