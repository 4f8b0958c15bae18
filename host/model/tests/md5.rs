//! The model's MD5 against RFC 1321's vectors and against md5sum(1).

use model::{md5, Etag};
use std::fs;
use std::process::Command;

fn hexadecimal(message: &[u8]) -> String {
    Etag::of_data(message).text()
}

/// RFC 1321, A.5.
#[test]
fn published_vectors() {
    let digits = "1234567890".repeat(8);
    let letters = "ABCDEFGHIJKLMNOPQRSTUVWXYZabcdefghijklmnopqrstuvwxyz0123456789";
    for (message, digest) in [
        ("", "d41d8cd98f00b204e9800998ecf8427e"),
        ("a", "0cc175b9c0f1b6a831c399e269772661"),
        ("abc", "900150983cd24fb0d6963f7d28e17f72"),
        ("message digest", "f96b697d7cb7938d525a2f31aaf161d0"),
        ("abcdefghijklmnopqrstuvwxyz", "c3fcd3d76192e4007dfb496cca67e13b"),
        (letters, "d174ab98d277d9f5a5611c2c9f419d9f"),
        (&digits, "57edf4a22be3c955ac49da2e2107b67a"),
    ] {
        assert_eq!(hexadecimal(message.as_bytes()), digest, "{message}");
    }
}

/// Every length to 300, so that each place of the padding occurs, and some long ones.
#[test]
fn as_md5sum_says() {
    let long = [1_000, 4_095, 4_096, 4_097, 65_536, 100_003, 1_048_575, 1_048_576];
    let folder = std::env::temp_dir().join(format!("rathnodi-model-md5-{}", std::process::id()));
    fs::create_dir(&folder).expect("a new folder");
    let messages: Vec<Vec<u8>> = (0..=300)
        .chain(long)
        .map(|length: usize| (0..length).map(|i| ((i * i + length) % 251) as u8).collect())
        .collect();
    let files: Vec<_> = (0..messages.len()).map(|i| folder.join(format!("{i:04}"))).collect();
    for (file, message) in files.iter().zip(&messages) {
        fs::write(file, message).expect("a written file");
    }
    let output = Command::new("md5sum").args(&files).output().expect("md5sum runs");
    fs::remove_dir_all(&folder).expect("the folder is removed");
    let text = String::from_utf8(output.stdout).expect("text");
    let digests: Vec<&str> = text.lines().map(|line| &line[..32]).collect();
    assert_eq!(digests.len(), messages.len());
    for (message, digest) in messages.iter().zip(digests) {
        assert_eq!(hexadecimal(message), digest, "{} bytes", message.len());
    }
}

#[test]
fn joined_etags() {
    assert_eq!(Etag::of_parts(&[]).text(), "d41d8cd98f00b204e9800998ecf8427e-0");
    let two = Etag::of_parts(&[md5(b"B"), md5(b"A")]);
    assert_eq!(two.text(), "e010117c9617553bf0b9556c0f5b541f-2");
    assert_eq!(Etag::Absent.text(), "");
}
