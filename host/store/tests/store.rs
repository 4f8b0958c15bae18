//! The wrapper: a walk through each call, and memory that is saved and brought back.

use rathnodi::{slices, Etag, Metadata, Object, Pair, Refusal, Store, Sweep, Upload};
use rathnodi::{FORMER_TABLES_LEN, TABLES_LEN};

/// d16fb36f0911f878998c136191af705e
const OF_XYZ: [u8; 16] = 0xd16fb36f_0911f878_998c1361_91af705e_u128.to_be_bytes();

#[test]
fn a_walk() {
    assert_eq!(slices::tables_len(), TABLES_LEN);
    let mut store = Store::fresh(64).unwrap();
    store.put(5, b"a", b"xyz", &[]).unwrap();
    let etag = Etag::Plain(OF_XYZ);
    let metadata = Metadata { length: 3, created: 5, etag, pairs: vec![] };
    assert_eq!(store.head(b"a"), Ok(metadata.clone()));
    assert_eq!(store.get(b"a"), Ok((metadata, b"xyz".to_vec())));
    assert_eq!(store.get_into(b"a", &mut [0; 2]), Err(Refusal::BufferShort));
    assert_eq!(store.get(b"b"), Err(Refusal::NotFound));
    store.copy(9, b"a", b"b").unwrap();

    let upload = store.initiate(7, b"r", &[]).unwrap();
    assert_eq!(store.part(upload, 2, b"xyz"), Ok(Etag::Plain(OF_XYZ)));
    store.part(upload, 1, b"A").unwrap();
    let open = Upload { number: 1, path: b"r".to_vec(), started: 7, parts: 2 };
    assert_eq!(store.uploads(b""), Ok(vec![open]));
    assert_eq!(store.commit(upload, &[1]), Err(Refusal::BadRequest));
    store.commit(upload, &[2, 1]).unwrap();
    let (metadata, data) = store.get(b"r").unwrap();
    assert_eq!((data.as_slice(), metadata.created), (b"xyzA".as_slice(), 7));
    assert!(matches!(metadata.etag, Etag::Joined(_, 2)));
    assert_eq!(store.abort(upload), Err(Refusal::BadRequest));

    store.delete(b"r").unwrap();
    let etag = "d16fb36f0911f878998c136191af705e".to_string();
    let object = Object { path: b"b".to_vec(), length: 3, created: 9, etag };
    assert_eq!(store.list(b"b", b""), Ok(vec![object]));
    assert_eq!(store.put(1, b"c", &[0; 65], &[]), Err(Refusal::ArenaFull));

    assert_eq!(store.replay_line(b"(put 5 \"63\" \"79\")"), Ok(()));
    assert_eq!(store.get(b"c").unwrap().1, b"y");
    assert_eq!(store.replay_line(b"(get \"64\")"), Err(Refusal::NotFound));
    assert_eq!(store.replay_line(b"(get \"64\")\n"), Err(Refusal::NotALine));
    assert_eq!(store.replay_line(b"(list \"\" \"\")"), Ok(()));
}

#[test]
fn many_deleted() {
    let mut store = Store::fresh(8).unwrap();
    store.put(5, b"a", b"xyz", &[]).unwrap();
    store.put(5, b"ab", b"", &[]).unwrap();
    let places = [(0, 2), (1, 1), (0, 3), (0, 0), (0, 2), (u32::MAX, u32::MAX)];
    let (bad, absent) = (Err(Refusal::BadRequest), Err(Refusal::NotFound));
    let expected = vec![Ok(()), absent, bad, bad, absent, bad];
    assert_eq!(store.delete_objects(b"ab", &places), Ok(expected));
    assert_eq!(store.head(b"ab"), Err(Refusal::NotFound));
    assert_eq!(store.delete_objects(b"a", &[(0, 1); 1001]), Err(Refusal::TooMany));
    assert_eq!(store.get(b"a").unwrap().1, b"xyz");
    let results = store.delete_objects(b"a", &[(0, 1); 1000]).unwrap();
    assert_eq!((results[0], &results[1..]), (Ok(()), [absent; 999].as_slice()));
    assert_eq!(store.delete_objects(b"", &[]), Ok(vec![]));
}

#[test]
fn swept() {
    let mut store = Store::fresh(8).unwrap();
    for stamp in [9, 3, 5, 4] {
        store.initiate(stamp, b"r", &[]).unwrap();
    }
    let open = |store: &Store| -> Vec<u32> {
        store.uploads(b"").unwrap().iter().map(|upload| upload.number).collect()
    };
    assert_eq!(store.sweep(0, 1), Err(Refusal::BadRequest));
    assert_eq!(store.sweep(5, 1), Ok(Sweep { count: 1, more: true }));
    assert_eq!(open(&store), [1, 3, 4]);
    assert_eq!(store.sweep(5, 1), Ok(Sweep { count: 1, more: false }));
    assert_eq!(open(&store), [1, 3]);
    assert_eq!(store.sweep(6, 0), Ok(Sweep { count: 0, more: true }));
    assert_eq!(store.sweep(9, u32::MAX), Ok(Sweep { count: 1, more: false }));
    assert_eq!(open(&store), [1]);
}

/// Pairs as they are answered.
fn owned(pairs: &[Pair]) -> Vec<(Vec<u8>, Vec<u8>)> {
    pairs.iter().map(|(key, value)| (key.to_vec(), value.to_vec())).collect()
}

#[test]
fn pairs_beside_the_data() {
    let mut store = Store::fresh(64).unwrap();
    let (baker, lot): (Pair, Pair) = ((b"baker", b"Ayla"), (b"flour-lot", b"R-4711"));
    store.put(5, b"a", b"xyz", &[lot, (b"size", b"3"), baker]).unwrap();
    let (metadata, data) = store.get(b"a").unwrap();
    assert_eq!((metadata.pairs, data.as_slice()), (owned(&[baker, lot]), b"xyz".as_slice()));
    assert_eq!(store.head(b"a").unwrap().pairs, owned(&[baker, lot]));
    assert_eq!(store.put(6, b"a", b"", &[baker, baker]), Err(Refusal::BadRequest));
    assert_eq!(store.put(6, b"a", b"", &[(b"k", &[b'v'; 256])]), Err(Refusal::BadRequest));
    assert_eq!(store.put(6, b"a", b"", &[(&[b'k'; 257], b"")]), Err(Refusal::BadRequest));
    assert_eq!(store.initiate(6, b"r", &[(b"k", &[b'v'; 64])]), Err(Refusal::ArenaFull));

    let upload = store.initiate(7, b"r", &[lot, (b"k", b"")]).unwrap();
    store.part(upload, 1, b"A").unwrap();
    store.commit(upload, &[1]).unwrap();
    assert_eq!(store.head(b"r").unwrap().pairs, owned(&[lot, (b"k", b"")]));
    store.copy(9, b"r", b"a").unwrap();
    assert_eq!(store.get(b"a").unwrap().0.pairs, owned(&[lot, (b"k", b"")]));
}

/// The first bytes of tables without pairs are tables of the former layout.
#[test]
fn carried_over() {
    let mut store = Store::fresh(8).unwrap();
    store.put(5, b"a", b"xyz", &[]).unwrap();
    let (tables, arena) = store.memory();
    let former = &tables[..FORMER_TABLES_LEN];
    let mut again = Store::carry_over(former, arena.into()).unwrap();
    assert_eq!(again.get(b"a"), store.get(b"a"));
    again.put(5, b"a", b"xyz", &[(b"k", b"v")]).unwrap();
    let refused = |former: &[u8], arena: &[u8]| {
        matches!(Store::carry_over(former, arena.into()), Err(Refusal::NotAStore))
    };
    assert!(refused(tables, arena) && refused(&former[1..], arena) && refused(former, &arena[1..]));
    let (tables, arena) = again.memory();
    assert!(refused(&tables[..FORMER_TABLES_LEN], arena));
}

#[test]
fn saved_memory() {
    let mut store = Store::fresh(8).unwrap();
    store.put(5, b"a", b"xyz", &[]).unwrap();
    let (tables, arena) = store.memory();
    let again = Store::from_memory(tables.into(), arena.into()).unwrap();
    assert_eq!(again.get(b"a").unwrap().1, b"xyz");
    let longer = [arena, &[0]].concat();
    assert!(matches!(Store::from_memory(tables.into(), longer.into()), Err(Refusal::NotAStore)));
    let shorter = &tables[1..];
    assert!(matches!(Store::from_memory(shorter.into(), arena.into()), Err(Refusal::NotAStore)));
    assert!(matches!(Store::fresh(1_048_577), Err(Refusal::BadRequest)));
}
