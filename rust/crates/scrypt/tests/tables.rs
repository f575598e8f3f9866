//! The test vectors of vectors/, the verifications of bindings/cases.tsv, and the hashes of other programs in
//! bindings/stored.tsv.

use scrypt::{LimitedError, Limits, Params, StoredHash, mcf, password_hash::Error, phc, scrypt};
use std::collections::HashMap;
use std::path::Path;

/// A file of the repository that the workspace is made in.
fn read(path: &str) -> String {
    let folders = Path::new(env!("CARGO_MANIFEST_DIR")).ancestors();
    let file = folders.map(|it| it.join(path)).find(|it| it.exists());
    std::fs::read_to_string(file.expect(path)).unwrap()
}

fn hex(digits: &str) -> Vec<u8> {
    (0..digits.len())
        .step_by(2)
        .map(|at| u8::from_str_radix(&digits[at..at + 2], 16).unwrap())
        .collect()
}

/// The members of each test in a file of vectors/, which has a member a line.
fn tests(name: &str) -> Vec<HashMap<String, String>> {
    let mut tests = vec![];
    for line in read(&format!("vectors/scrypt_{name}_test.json")).lines() {
        let member = line.trim().trim_end_matches(',').split_once(": ");
        if member.is_some_and(|(name, _)| name == "\"tcId\"") {
            tests.push(HashMap::new());
        }
        if let (Some(test), Some((name, value))) = (tests.last_mut(), member) {
            test.insert(
                name.trim_matches('"').into(),
                value.trim_matches('"').into(),
            );
        }
    }
    tests
}

/// Bytes in hexadecimal, or pairs of such bytes and how often they are repeated.
fn data(value: &str) -> Vec<u8> {
    let runs = value.trim_matches(['[', ']']).split("], [");
    runs.flat_map(|run| {
        let (one, times) = run.split_once(", ").unwrap_or((run, "1"));
        hex(one.trim_matches('"')).repeat(times.parse().unwrap())
    })
    .collect()
}

/// Whether the key is that of the test, or None for an error.
fn key(test: &HashMap<String, String>) -> Option<bool> {
    let (n, mut key): (u128, _) = (
        test["N"].parse().unwrap(),
        vec![0; test["dkLen"].parse().unwrap()],
    );
    let (r, p) = (test["r"].parse().ok()?, test["p"].parse().ok()?);
    let log_n = n.is_power_of_two().then(|| n.trailing_zeros() as u8)?;
    let params = Params::new(log_n, r, p).ok()?;
    scrypt(
        &data(&test["password"]),
        &data(&test["salt"]),
        &params,
        &mut key,
    )
    .ok()?;
    Some(key == hex(&test["dk"]))
}

#[test]
fn vectors() {
    for name in ["kdf", "phc", "mcf"] {
        let all = tests(name);
        let count = format!("\"numberOfTests\": {},", all.len());
        assert!(read(&format!("vectors/scrypt_{name}_test.json")).contains(&count));
        // None that takes a GiB, and no key of 128 GiB.
        for test in all.iter().filter(|it| {
            !["LargeMemory", "OutputTooLong"]
                .iter()
                .any(|flag| it["flags"].contains(flag))
        }) {
            let answer = match name {
                "kdf" => key(test),
                _ => String::from_utf8(data(&test["hash"]))
                    .ok()
                    .and_then(|text| verify(&data(&test["password"]), &text).ok())
                    .map(|()| true),
            };
            let is_right = match test["result"].as_str() {
                "valid" => answer == Some(true),
                "invalid" => answer.is_none(),
                _ => answer != Some(false),
            };
            assert!(
                is_right,
                "{name} {}: {}: {answer:?}",
                test["tcId"], test["comment"]
            );
        }
    }
}

/// The rows of a table of bindings/.
fn rows(name: &str) -> Vec<Vec<String>> {
    read(&format!("bindings/{name}"))
        .lines()
        .skip(1)
        .map(|row| row.split('\t').map(String::from).collect())
        .collect()
}

fn verify(password: &[u8], text: &str) -> Result<(), LimitedError> {
    Ok(StoredHash::read(text)?
        .within(&Limits::DEFAULT)?
        .verify(password)?)
}

/// The name of an error in the table, and the numbers that it has there.
fn named(result: Result<(), LimitedError>) -> (&'static str, String) {
    let status = match result {
        Ok(()) => "OK",
        Err(LimitedError::Hash(error)) => match error {
            Error::PasswordInvalid => "MISMATCH",
            Error::EncodingInvalid => "ENCODING_INVALID",
            Error::ParamInvalid { .. } => "HASH_PARAM_INVALID",
            Error::ParamsInvalid => "HASH_PARAMS_INVALID",
            Error::Algorithm => "ALGORITHM",
            Error::Version => "VERSION",
            Error::OutputSize => "OUTPUT_SIZE",
            Error::SaltInvalid | Error::OutOfMemory => panic!("{error}"),
        },
        Err(LimitedError::TooCostly { bytes, work }) => {
            let Limits {
                max_mem, max_work, ..
            } = Limits::DEFAULT;
            let numbers = format!(
                "need {bytes} bytes (at most {max_mem}) and a work of {work} (at most {max_work})"
            );
            return ("TOO_COSTLY", numbers);
        }
        Err(LimitedError::KeyTooShort { key_len }) => {
            let least = Limits::DEFAULT.min_key_len;
            return (
                "KEY_TOO_SHORT",
                format!("its length is {key_len}, and at least {least} is required"),
            );
        }
        Err(LimitedError::BufferTooShort) => unreachable!(),
    };
    (status, String::new())
}

#[test]
fn cases() {
    for row in rows("cases.tsv") {
        let text = row[2].replace("\\0", "\0");
        let (status, numbers) = named(verify(row[1].as_bytes(), &text));
        assert_eq!(status, row[0], "{text}");
        assert!(
            row.get(3).map_or("", String::as_str).ends_with(&numbers),
            "{text}: {numbers}"
        );
    }
}

/// The text of a key that another program has derived: a PHC string of the first 64 bytes if it can hold the salt and the
/// key, and otherwise a `$7$` hash.
fn stored_text(salt: &[u8], key: &[u8], params: &Params) -> Result<String, LimitedError> {
    match phc::hash_of_key(params, salt, &key[..key.len().min(64)]) {
        Ok(hash) => Ok(hash.to_string()),
        Err(_) => {
            let salt = str::from_utf8(salt).map_err(|_| Error::SaltInvalid)?;
            let mut text = vec![0; 100 + salt.len() + 2 * key.len()];
            let len = mcf::write_hash_of_key(params, salt, key, &mut text)?;
            Ok(String::from_utf8(text[..len].to_vec()).unwrap())
        }
    }
}

#[test]
fn stored() {
    // The other values of N are for functions that take N.
    for row in rows("stored.tsv").iter().filter(|row| row[2] == "64") {
        let params = Params::new(6, row[3].parse().unwrap(), row[4].parse().unwrap());
        let made = params
            .ok()
            .and_then(|it| stored_text(&hex(&row[0]), &hex(&row[1]), &it).ok());
        assert_eq!(made.unwrap_or_default(), row[5], "{row:?}");
    }
}
