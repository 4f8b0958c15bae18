//! The same calls on SQLite in memory: value, stamp and MD5 are stored, statements are prepared
//! once, and no journal is kept. Ceilings and paths are not checked.

use crate::contestant::Contestant;
use std::ffi::{c_char, c_int, c_void, CStr, CString};
use std::ptr::{null, null_mut};

#[allow(non_camel_case_types)]
enum sqlite3 {}
#[allow(non_camel_case_types)]
enum sqlite3_stmt {}

extern "C" {
    fn sqlite3_open(name: *const c_char, base: *mut *mut sqlite3) -> c_int;
    fn sqlite3_close(base: *mut sqlite3) -> c_int;
    fn sqlite3_errmsg(base: *mut sqlite3) -> *const c_char;
    fn sqlite3_exec(
        base: *mut sqlite3,
        text: *const c_char,
        each: *const c_void,
        with: *mut c_void,
        error: *mut *mut c_char,
    ) -> c_int;
    fn sqlite3_prepare_v2(
        base: *mut sqlite3,
        text: *const c_char,
        length: c_int,
        statement: *mut *mut sqlite3_stmt,
        rest: *mut *const c_char,
    ) -> c_int;
    fn sqlite3_bind_blob(
        statement: *mut sqlite3_stmt,
        place: c_int,
        bytes: *const c_void,
        length: c_int,
        free: *const c_void,
    ) -> c_int;
    fn sqlite3_bind_int64(statement: *mut sqlite3_stmt, place: c_int, number: i64) -> c_int;
    fn sqlite3_step(statement: *mut sqlite3_stmt) -> c_int;
    fn sqlite3_reset(statement: *mut sqlite3_stmt) -> c_int;
    fn sqlite3_finalize(statement: *mut sqlite3_stmt) -> c_int;
    fn sqlite3_column_blob(statement: *mut sqlite3_stmt, column: c_int) -> *const c_void;
    fn sqlite3_column_bytes(statement: *mut sqlite3_stmt, column: c_int) -> c_int;
    fn sqlite3_column_int64(statement: *mut sqlite3_stmt, column: c_int) -> i64;
    fn sqlite3_changes(base: *mut sqlite3) -> c_int;

    fn MD5(bytes: *const u8, length: usize, digest: *mut u8) -> *mut u8;
}

const ROW: c_int = 100;
const DONE: c_int = 101;

pub fn md5(bytes: &[u8]) -> [u8; 16] {
    let mut digest = [0; 16];
    unsafe { MD5(bytes.as_ptr(), bytes.len(), digest.as_mut_ptr()) };
    digest
}

enum Value<'a> {
    Number(i64),
    Bytes(&'a [u8]),
}

use Value::{Bytes, Number};

struct Statement(*mut sqlite3_stmt);

impl Statement {
    /// Binds the values; they are borrowed until the reset.
    fn bind(&self, values: &[Value]) {
        for (i, value) in values.iter().enumerate() {
            let place = i as c_int + 1;
            let bound = unsafe {
                match value {
                    Number(number) => sqlite3_bind_int64(self.0, place, *number),
                    Bytes(bytes) => {
                        let length = bytes.len() as c_int;
                        sqlite3_bind_blob(self.0, place, bytes.as_ptr().cast(), length, null())
                    }
                }
            };
            assert_eq!(bound, 0, "bind");
        }
    }

    /// Runs a statement without rows.
    fn run(&self, values: &[Value]) {
        self.bind(values);
        let stepped = unsafe { sqlite3_step(self.0) };
        unsafe { sqlite3_reset(self.0) };
        assert_eq!(stepped, DONE, "step");
    }

    /// Hands each row on; gives how many there were.
    fn rows(&self, values: &[Value], mut each: impl FnMut(&Row)) -> usize {
        self.bind(values);
        let mut count = 0;
        while unsafe { sqlite3_step(self.0) } == ROW {
            each(&Row(self.0));
            count += 1;
        }
        unsafe { sqlite3_reset(self.0) };
        count
    }
}

impl Drop for Statement {
    fn drop(&mut self) {
        unsafe { sqlite3_finalize(self.0) };
    }
}

struct Row(*mut sqlite3_stmt);

impl Row {
    fn number(&self, column: c_int) -> i64 {
        unsafe { sqlite3_column_int64(self.0, column) }
    }

    fn bytes(&self, column: c_int) -> &[u8] {
        let bytes: *const u8 = unsafe { sqlite3_column_blob(self.0, column) }.cast();
        let length = unsafe { sqlite3_column_bytes(self.0, column) } as usize;
        if length == 0 {
            return &[];
        }
        unsafe { std::slice::from_raw_parts(bytes, length) }
    }
}

struct Base(*mut sqlite3);

impl Base {
    fn open() -> Base {
        let mut base = null_mut();
        let opened = unsafe { sqlite3_open(c":memory:".as_ptr(), &mut base) };
        assert_eq!(opened, 0, "sqlite3_open");
        Base(base)
    }

    fn check(&self, code: c_int) {
        let message = || unsafe { CStr::from_ptr(sqlite3_errmsg(self.0)) };
        assert_eq!(code, 0, "{:?}", message());
    }

    fn execute(&self, text: &str) {
        let text = CString::new(text).expect("text");
        self.check(unsafe { sqlite3_exec(self.0, text.as_ptr(), null(), null_mut(), null_mut()) });
    }

    fn prepare(&self, text: &str) -> Statement {
        let mut statement = null_mut();
        let length = text.len() as c_int;
        let at = text.as_ptr().cast();
        self.check(unsafe { sqlite3_prepare_v2(self.0, at, length, &mut statement, null_mut()) });
        Statement(statement)
    }
}

impl Drop for Base {
    fn drop(&mut self) {
        unsafe { sqlite3_close(self.0) };
    }
}

/// Statements close before the base: fields are dropped in order.
pub struct Sqlite {
    put: Statement,
    get: Statement,
    head: Statement,
    delete: Statement,
    copy: Statement,
    list: Statement,
    list_all: Statement,
    initiate: Statement,
    upload: Statement,
    end_upload: Statement,
    part: Statement,
    one_part: Statement,
    count_parts: Statement,
    end_parts: Statement,
    begin: Statement,
    end: Statement,
    next: u32,
    base: Base,
}

const SCHEMA: &str = "
    PRAGMA journal_mode = OFF;
    PRAGMA synchronous = OFF;
    PRAGMA locking_mode = EXCLUSIVE;
    CREATE TABLE objects (path BLOB PRIMARY KEY, created INTEGER, parts INTEGER, md5 BLOB, data BLOB);
    CREATE TABLE uploads (number INTEGER PRIMARY KEY, path BLOB, started INTEGER);
    CREATE TABLE parts (upload INTEGER, number INTEGER, md5 BLOB, data BLOB, PRIMARY KEY (upload, number));
";

/// In column `parts`: a plain etag.
const PLAIN: i64 = -1;

impl Sqlite {
    pub fn fresh() -> Sqlite {
        let base = Base::open();
        base.execute(SCHEMA);
        let listed = "SELECT path, length(data), created, parts, md5 FROM objects";
        Sqlite {
            put: base.prepare("INSERT OR REPLACE INTO objects VALUES (?1, ?2, ?3, ?4, ?5)"),
            get: base.prepare("SELECT created, parts, md5, data FROM objects WHERE path = ?1"),
            head: base
                .prepare("SELECT created, parts, md5, length(data) FROM objects WHERE path = ?1"),
            delete: base.prepare("DELETE FROM objects WHERE path = ?1"),
            copy: base.prepare(
                "INSERT OR REPLACE INTO objects SELECT ?1, ?2, parts, md5, data FROM objects WHERE path = ?3",
            ),
            list: base.prepare(&format!("{listed} WHERE path >= ?1 AND path < ?2 ORDER BY path")),
            list_all: base.prepare(&format!("{listed} ORDER BY path")),
            initiate: base.prepare("INSERT INTO uploads VALUES (?1, ?2, ?3)"),
            upload: base.prepare("SELECT path, started FROM uploads WHERE number = ?1"),
            end_upload: base.prepare("DELETE FROM uploads WHERE number = ?1"),
            part: base.prepare("INSERT OR REPLACE INTO parts VALUES (?1, ?2, ?3, ?4)"),
            one_part: base.prepare("SELECT md5, data FROM parts WHERE upload = ?1 AND number = ?2"),
            count_parts: base.prepare("SELECT count(*) FROM parts WHERE upload = ?1"),
            end_parts: base.prepare("DELETE FROM parts WHERE upload = ?1"),
            begin: base.prepare("BEGIN"),
            end: base.prepare("COMMIT"),
            next: 1,
            base,
        }
    }

    /// In one transaction.
    pub fn delete_all(&mut self, paths: &[Vec<u8>]) {
        self.begin.run(&[]);
        paths.iter().for_each(|path| self.delete(path));
        self.end.run(&[]);
    }
}

impl Contestant for Sqlite {
    fn put(&mut self, stamp: u64, path: &[u8], data: &[u8]) {
        let digest = md5(data);
        let stamp = Number(stamp as i64);
        self.put.run(&[Bytes(path), stamp, Number(PLAIN), Bytes(&digest), Bytes(data)]);
    }

    fn get(&mut self, path: &[u8], answer: &mut [u8]) -> usize {
        let mut length = 0;
        self.get.rows(&[Bytes(path)], |row| {
            std::hint::black_box((row.number(0), row.number(1), row.bytes(2)[0]));
            let data = row.bytes(3);
            length = data.len();
            answer[..length].copy_from_slice(data);
        });
        length
    }

    fn head(&mut self, path: &[u8]) -> u64 {
        let mut created = 0;
        let found = self.head.rows(&[Bytes(path)], |row| {
            std::hint::black_box((row.number(1), row.bytes(2)[0], row.number(3)));
            created = row.number(0) as u64;
        });
        assert_eq!(found, 1);
        created
    }

    fn delete(&mut self, path: &[u8]) {
        self.delete.run(&[Bytes(path)]);
        assert_eq!(unsafe { sqlite3_changes(self.base.0) }, 1);
    }

    /// The digest is that of the source, which is not computed anew.
    fn copy(&mut self, stamp: u64, source: &[u8], destination: &[u8]) {
        self.copy.run(&[Bytes(destination), Number(stamp as i64), Bytes(source)]);
        assert_eq!(unsafe { sqlite3_changes(self.base.0) }, 1);
    }

    /// Writes document 01's records. The prefix must not end with byte 255.
    fn list(&mut self, prefix: &[u8], answer: &mut [u8]) -> usize {
        let mut length = 0;
        let mut write = |bytes: &[u8]| {
            answer[length..length + bytes.len()].copy_from_slice(bytes);
            length += bytes.len();
        };
        let record = |row: &Row| {
            let path = row.bytes(0);
            write(&[path.len() as u8]);
            write(path);
            write(&(row.number(1) as u32).to_le_bytes());
            write(&row.number(2).to_le_bytes());
            let mut text = [0; 36];
            let digits = b"0123456789abcdef";
            for (i, byte) in row.bytes(4).iter().enumerate() {
                text[2 * i] = digits[usize::from(byte >> 4)];
                text[2 * i + 1] = digits[usize::from(byte & 15)];
            }
            match row.number(3) {
                PLAIN => {
                    write(&[32]);
                    write(&text[..32]);
                }
                parts => {
                    let joined = format!("-{parts}");
                    write(&[32 + joined.len() as u8]);
                    write(&text[..32]);
                    write(joined.as_bytes());
                }
            }
        };
        match prefix.split_last() {
            None => self.list_all.rows(&[], record),
            Some((last, front)) => {
                let past = [front, &[last + 1]].concat();
                self.list.rows(&[Bytes(prefix), Bytes(&past)], record)
            }
        };
        length
    }

    fn initiate(&mut self, stamp: u64, path: &[u8]) -> u32 {
        let number = self.next;
        self.next += 1;
        self.initiate.run(&[Number(number.into()), Bytes(path), Number(stamp as i64)]);
        number
    }

    fn part(&mut self, upload: u32, part: u16, data: &[u8]) {
        let digest = md5(data);
        let (upload, part) = (Number(upload.into()), Number(part.into()));
        self.part.run(&[upload, part, Bytes(&digest), Bytes(data)]);
    }

    fn commit(&mut self, upload: u32, list: &[u8]) {
        let number = || Number(upload.into());
        self.begin.run(&[]);
        let (mut path, mut started) = (Vec::new(), 0);
        let found = self.upload.rows(&[number()], |row| {
            path = row.bytes(0).to_vec();
            started = row.number(1);
        });
        assert_eq!(found, 1);
        let (mut data, mut digests, mut count) = (Vec::new(), Vec::new(), 0);
        for pair in list.chunks_exact(2) {
            let part = Number(u16::from_le_bytes([pair[0], pair[1]]).into());
            count += self.one_part.rows(&[number(), part], |row| {
                digests.extend(row.bytes(0));
                data.extend(row.bytes(1));
            });
        }
        let mut parts = 0;
        self.count_parts.rows(&[number()], |row| parts = row.number(0) as usize);
        assert!(count == parts && 2 * count == list.len());
        let digest = md5(&digests);
        let etag = [Number(count as i64), Bytes(&digest)];
        let [count, digest] = etag;
        self.put.run(&[Bytes(&path), Number(started), count, digest, Bytes(&data)]);
        self.end_parts.run(&[number()]);
        self.end_upload.run(&[number()]);
        self.end.run(&[]);
    }
}
