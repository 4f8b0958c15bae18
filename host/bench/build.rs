//! SQLite holds the other store, OpenSSL computes its digests.

fn main() {
    println!("cargo:rustc-link-lib=sqlite3");
    println!("cargo:rustc-link-lib=crypto");
}
