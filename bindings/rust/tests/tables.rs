//! The verifications of bindings/cases.tsv, and the hashes of other programs in
//! bindings/stored.tsv. A release's crate lacks these tables and this file.

use scrypt_c::migration::stored_text;
use scrypt_c::{params_of, Error, Hasher, Params};

fn rows(path: &str) -> Vec<Vec<String>> {
    let table = std::fs::read_to_string(path).expect(path);
    table.lines().skip(1).map(|line| line.split('\t').map(String::from).collect()).collect()
}

#[test]
fn cases() {
    let hasher = Hasher::default();
    for row in rows("../cases.tsv") {
        let text = row[2].replace("\\0", "\0");
        let found = hasher.verify(row[1].as_bytes(), &text);
        let camel = |word: &str| word[..1].to_string() + &word[1..].to_lowercase();
        let name: String = row[0].trim_start_matches("HASH_").split('_').map(camel).collect();
        let (wanted, is_rejected) = match row[0].as_str() {
            "OK" => ("Ok(())".to_string(), false),
            "MISMATCH" => ("Err(PasswordInvalid)".to_string(), false),
            _ => (format!("Err({name}"), true),
        };
        assert!(format!("{found:?}").starts_with(&wanted), "{text}: {found:?}, not {wanted}");
        let error = found.err();
        assert_eq!(error.map_or(false, |it| it.is_rejected()), is_rejected, "{text}");
        if let Some(numbers) = row.get(3) {
            let words = error.map(|it| it.to_string()).unwrap_or_default();
            assert!(words.ends_with(&format!(": {numbers}")), "{words}");
        }
        let unread = error.filter(Error::is_invalid_hash);
        assert_eq!(params_of(&text).err(), unread, "{text}");
        assert_eq!(hasher.needs_rehash(&text).err(), unread, "{text}");
    }
}

#[test]
fn stored() {
    let hex = |text: &str| -> Vec<u8> {
        let byte = |at| u8::from_str_radix(&text[at..at + 2], 16).unwrap();
        (0..text.len()).step_by(2).map(byte).collect()
    };
    // The other values of N are for functions that take N.
    for row in rows("../stored.tsv").iter().filter(|row| row[2] == "64") {
        let made = Params::new(6, row[3].parse().unwrap(), row[4].parse().unwrap())
            .map_err(Error::from)
            .and_then(|params| stored_text(&hex(&row[0]), &hex(&row[1]), &params));
        assert_eq!(made.unwrap_or_default(), row[5], "{row:?}");
    }
}
