//! What docs/LAYOUT.md says about saving: a save whose tables and arena are of two moments can be a
//! store, with bytes that no call wrote, and how a host finds that.

use model::md5;
use rathnodi::{Etag, Store};

/// What is brought back where the tables are saved from one store and the arena from another.
fn brought_back(tables_of: &Store, arena_of: &Store) -> Store {
    let (tables, arena) = (tables_of.memory().0, arena_of.memory().1);
    Store::from_memory(tables.into(), arena.into()).expect("a store")
}

/// The check that docs/LAYOUT.md gives: a plain etag is the digest of the data.
fn plain_etag_holds(store: &Store, path: &[u8]) -> bool {
    let (metadata, data) = store.get(path).expect("an object");
    metadata.etag == Etag::Plain(md5(&data))
}

#[test]
fn a_torn_save_with_plain_etags() {
    let mut store = Store::fresh(16).unwrap();
    store.put(5, b"b", b"rye flour", &[]).unwrap();
    let before = brought_back(&store, &store);
    store.put(6, b"a", b"salt", &[]).unwrap();
    assert!(plain_etag_holds(&store, b"a") && plain_etag_holds(&store, b"b"));

    let torn = brought_back(&store, &before);
    assert_eq!(torn.get(b"a").unwrap().1, b"rye ");
    assert_eq!(torn.get(b"b").unwrap().1, b"flour\0\0\0\0");
    assert!(!plain_etag_holds(&torn, b"a") && !plain_etag_holds(&torn, b"b"));
}

#[test]
fn a_torn_save_with_a_joined_etag() {
    let mut store = Store::fresh(16).unwrap();
    let upload = store.initiate(5, b"b", &[]).unwrap();
    store.part(upload, 1, b"rye ").unwrap();
    store.part(upload, 2, b"flour").unwrap();
    store.commit(upload, &[1, 2]).unwrap();
    let before = brought_back(&store, &store);
    store.put(6, b"a", b"salt", &[]).unwrap();

    // The store gives the same metadata for both, and the digest of all the data is no help.
    let torn = brought_back(&store, &before);
    let (good, damaged) = (store.get(b"b").unwrap(), torn.get(b"b").unwrap());
    assert_eq!((&good.0, good.1.as_slice()), (&damaged.0, b"rye flour".as_slice()));
    assert_eq!(damaged.1, b"flour\0\0\0\0");
    assert!(!plain_etag_holds(&store, b"b"));

    // With the lengths of the parts a host can take the digests of the parts and digest these.
    let joined = |data: &[u8]| md5(&[md5(&data[..4]), md5(&data[4..])].concat());
    assert_eq!(good.0.etag, Etag::Joined(joined(&good.1), 2));
    assert_ne!(damaged.0.etag, Etag::Joined(joined(&damaged.1), 2));

    // A copy onto itself has a plain etag.
    store.copy(5, b"b", b"b").unwrap();
    assert!(plain_etag_holds(&store, b"b"));
}

#[test]
fn what_plain_etags_do_not_show() {
    let mut store = Store::fresh(16).unwrap();
    store.put(5, b"a", b"salt", &[]).unwrap();
    store.put(6, b"b", b"rye", &[]).unwrap();
    let (tables, arena) = store.memory();
    let mut changed = tables.to_vec();
    // The object's path and its stamp (docs/LAYOUT.md): a row of 36 bytes from byte 18 on, then the path.
    changed[18 + 36] = b'A';
    changed[18 + 8] = 9;
    let changed = Store::from_memory(changed.into(), arena.into()).expect("a store");
    assert!(plain_etag_holds(&changed, b"A"));
    assert_eq!(changed.head(b"A").unwrap().created, 9);
}
