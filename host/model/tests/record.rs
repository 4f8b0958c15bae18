//! The independent reader of lines, at every edge that document 02 draws, and whole inputs.

use model::{lines_of, replay, Entry, LONGEST_LINE, NOT_A_LINE, REPLAY_ROOM};

fn is_form(line: &str) -> bool {
    let read = Entry::read(line.as_bytes());
    if let Some(entry) = &read {
        assert_eq!(entry.to_string(), line);
    }
    read.is_some()
}

fn forms(lines: &[&str]) {
    lines.iter().for_each(|line| assert!(is_form(line), "{line}"));
}

fn no_forms(lines: &[&str]) {
    lines.iter().for_each(|line| assert!(!is_form(line), "{line}"));
}

/// One line of each verb.
const EACH: [&str; 11] = [
    r#"(put 5 "61" "78797a")"#,
    r#"(get "61")"#,
    r#"(head "61")"#,
    r#"(delete "61")"#,
    r#"(copy 9 "61" "62")"#,
    r#"(list "61" "62")"#,
    r#"(initiate 7 "72")"#,
    r#"(part 1 2 "42")"#,
    r#"(commit 1 (2 1))"#,
    r#"(abort 1)"#,
    r#"(uploads "72")"#,
];

#[test]
fn every_verb_is_read() {
    let (path, pairs) = (b"a".to_vec(), Vec::new());
    let said = |line: &str| Entry::read(line.as_bytes()).expect("a form");
    assert_eq!(
        said(EACH[0]),
        Entry::Put { stamp: 5, path: path.clone(), data: b"xyz".to_vec(), pairs: pairs.clone() }
    );
    assert_eq!(said(EACH[1]), Entry::Get { path: path.clone() });
    assert_eq!(said(EACH[2]), Entry::Head { path: path.clone() });
    assert_eq!(said(EACH[3]), Entry::Delete { path: path.clone() });
    assert_eq!(
        said(EACH[4]),
        Entry::Copy { stamp: 9, source: path.clone(), destination: b"b".to_vec() }
    );
    assert_eq!(said(EACH[5]), Entry::List { prefix: path, suffix: b"b".to_vec() });
    assert_eq!(said(EACH[6]), Entry::Initiate { stamp: 7, path: b"r".to_vec(), pairs });
    assert_eq!(said(EACH[7]), Entry::Part { upload: 1, part: 2, data: b"B".to_vec() });
    assert_eq!(said(EACH[8]), Entry::Commit { upload: 1, list: vec![2, 1] });
    assert_eq!(said(EACH[9]), Entry::Abort { upload: 1 });
    assert_eq!(said(EACH[10]), Entry::Uploads { prefix: b"r".to_vec() });
    forms(&EACH);
}

/// A form that is cut is none, nor is a form with one byte more that is no digit.
#[test]
fn every_byte_counts() {
    for line in EACH {
        for end in 0..line.len() {
            no_forms(&[&line[..end]]);
        }
        for at in 0..=line.len() {
            for more in [" ", "(", ")", "\"", "\t", "\r", "\n", "\0", "x", "A"] {
                no_forms(&[&[&line[..at], more, &line[at..]].concat()]);
            }
        }
    }
}

#[test]
fn verbs() {
    no_forms(&[
        r#"(Put 5 "61" "78797a")"#,
        r#"(PUT 5 "61" "78797a")"#,
        r#"(putt 5 "61" "78797a")"#,
        r#"(pu 5 "61" "78797a")"#,
        r#"( "61")"#,
        r#"(fresh)"#,
        r#"(sweep 5 1)"#,
        r#"(delete_objects "61" (0 1))"#,
        r#"(puté 5 "61" "78797a")"#,
        "()",
        "(",
        "",
    ]);
}

/// "01's arguments in 01's order".
#[test]
fn arguments() {
    no_forms(&[
        r#"(put "61" 5 "78797a")"#,
        r#"(put 5 "61")"#,
        r#"(put 5 "61" "62" "63")"#,
        r#"(get 5)"#,
        r#"(get "61" "62")"#,
        r#"(get)"#,
        r#"(copy "61" "62" 5)"#,
        r#"(list "61")"#,
        r#"(part 1 "42" 2)"#,
        r#"(part 1 "42")"#,
        r#"(commit (2 1) 1)"#,
        r#"(commit 1)"#,
        r#"(commit 1 2 1)"#,
        r#"(commit 1 (2 1) (3))"#,
        r#"(abort "31")"#,
        r#"(abort 1 2)"#,
        r#"(uploads)"#,
    ]);
}

#[test]
fn numbers() {
    forms(&["(abort 0)", "(abort 9)", "(abort 10)", "(abort 18446744073709551615)"]);
    no_forms(&[
        "(abort 00)",
        "(abort 007)",
        "(abort 01)",
        "(abort 18446744073709551616)",
        "(abort 18446744073709551625)",
        "(abort 99999999999999999999)",
        "(abort 100000000000000000000000000000000000000000)",
        "(abort +1)",
        "(abort -1)",
        "(abort 1.0)",
        "(abort 0x1)",
        "(abort 1a)",
        "(abort )",
        "(abort ١)",
        r#"(put 00 "61" "")"#,
        "(commit 1 (00))",
        "(commit 1 (18446744073709551616))",
        "(commit 1 (2 01))",
    ]);
    forms(&["(commit 1 (18446744073709551615))", "(commit 18446744073709551615 (0))"]);
}

#[test]
fn quoted_forms() {
    forms(&[r#"(get "")"#, r#"(put 5 "" "")"#, r#"(list "" "")"#, r#"(get "00ff0a22")"#]);
    let capitals = [r#"(get "6A")"#, r#"(get "A6")"#, r#"(put 5 "61" "FF")"#];
    let odd = [r#"(get "6")"#, r#"(get "616")"#, r#"(put 5 "61" "787")"#];
    no_forms(&capitals);
    no_forms(&odd);
    no_forms(&[
        r#"(get "6g")"#,
        r#"(get "6 1")"#,
        r#"(get "61 62")"#,
        r#"(get "a")"#,
        r#"(get 61)"#,
        r#"(get '61')"#,
        r#"(get "61)"#,
        r#"(get 61")"#,
        r#"(get "61""62")"#,
        r#"(get "\x61")"#,
        r#"(list "61""62")"#,
    ]);
}

#[test]
fn spaces() {
    no_forms(&[
        r#"(put  5 "61" "78")"#,
        r#"(put 5  "61" "78")"#,
        r#"(put 5 "61"  "78")"#,
        r#"(put 5 "61" "78" )"#,
        r#"( put 5 "61" "78")"#,
        r#" (put 5 "61" "78")"#,
        r#"(put 5 "61" "78") "#,
        r#"(put5 "61" "78")"#,
        r#"(put 5"61" "78")"#,
        r#"(put 5 "61""78")"#,
        "(put\t5 \"61\" \"78\")",
        "(put 5\t\"61\" \"78\")",
        "(put 5 \"61\" \"78\"\t)",
        "(put 5 \"61\" \"78\")\r",
        "(put 5 \"61\" \"78\"\r)",
        "(put 5\u{a0}\"61\" \"78\")",
        "(commit 1 ( 2 1))",
        "(commit 1 (2 1 ))",
        "(commit 1 (2  1))",
        "(commit 1 (2 1) )",
        "(commit 1 ( ))",
        "(commit 1(2 1))",
        "(commit 1 (2,1))",
        "(commit 1 (2\t1))",
        "(abort 1 )",
        "(abort  1)",
    ]);
}

#[test]
fn part_lists() {
    forms(&["(commit 1 ())", "(commit 1 (0))", "(commit 1 (1 1 1))", "(commit 0 (70000))"]);
    no_forms(&[
        "(commit 1 (()))",
        "(commit 1 ((1)))",
        "(commit 1 (1)",
        "(commit 1 1))",
        "(commit 1 (\"31\"))",
    ]);
}

#[test]
fn pairs() {
    forms(&[
        r#"(put 5 "61" "" ("6b" "76"))"#,
        r#"(put 5 "61" "" ("6b" "76") ("" "") ("6b" "76"))"#,
        r#"(initiate 5 "61" ("6b" ""))"#,
    ]);
    let long = "61".repeat(256);
    forms(&[&format!("(initiate 5 \"61\" (\"{long}\" \"\") (\"\" \"{long}\"))")]);
    forms(&[&format!("(put 5 \"61\" \"\"{})", " (\"6b\" \"\")".repeat(300))]);
    for line in EACH {
        let with_pair = [&line[..line.len() - 1], r#" ("6b" "76"))"#].concat();
        assert_eq!(is_form(&with_pair), line.starts_with("(put") || line.starts_with("(initiate"));
    }
    no_forms(&[
        r#"(put 5 "61" "" ())"#,
        r#"(put 5 "61" "" ("6b"))"#,
        r#"(put 5 "61" "" ("6b" "76" "76"))"#,
        r#"(put 5 "61" "" ("6b"  "76"))"#,
        r#"(put 5 "61" "" ("6b" "76" ))"#,
        r#"(put 5 "61" "" ( "6b" "76"))"#,
        r#"(put 5 "61" "" ("6b" "76") )"#,
        r#"(put 5 "61" ""  ("6b" "76"))"#,
        r#"(put 5 "61" ""("6b" "76"))"#,
        r#"(put 5 "61" "" ("6b" "76")("6b" "76"))"#,
        r#"(put 5 "61" "" (("6b" "76")))"#,
        r#"(put 5 "61" "" (5 "76"))"#,
        r#"(put 5 "61" "" "6b" "76")"#,
        r#"(put 5 "61" ("6b" "76") "")"#,
        r#"(initiate 5 ("6b" "76") "61")"#,
    ]);
}

#[test]
fn ends() {
    no_forms(&[
        r#"(get "61"))"#,
        r#"(get "61"))("#,
        r#"(get "61")x"#,
        r#"(get "61")(get "61")"#,
        r#"(get "61") (get "61")"#,
        r#"((get "61"))"#,
        "(get \"61\")\n",
        "(get \"61\")\0",
        "\0(get \"61\")",
        "(get \"61\0\")",
        "\0",
        "\u{feff}(get \"61\")",
    ]);
}

/// "over 4,096 bytes before its line feed".
#[test]
fn lengths() {
    let get = |bytes: usize| format!("(get \"{}\")", "61".repeat(bytes));
    let delete = |bytes: usize| format!("(delete \"{}\")", "61".repeat(bytes));
    assert_eq!(get(2044).len(), LONGEST_LINE);
    assert!(is_form(&get(2044)));
    assert_eq!(delete(2043).len(), LONGEST_LINE + 1);
    assert!(!is_form(&delete(2043)));
    assert!(is_form(&delete(2042)));
    assert!(!is_form(&get(2045)));
    let input = [get(2044), delete(2043), get(1)].join("\n");
    assert_eq!(replay(input.as_bytes()), [2, NOT_A_LINE, 3]);
}

#[test]
fn lines_of_an_input() {
    let lines = |input: &'static str| -> Vec<&[u8]> { lines_of(input.as_bytes()) };
    assert_eq!(lines(""), [b""; 0]);
    assert_eq!(lines("\n"), [b""]);
    assert_eq!(lines("\n\n"), [b"", b""]);
    assert_eq!(lines("a"), [b"a"]);
    assert_eq!(lines("a\n"), [b"a"]);
    assert_eq!(lines("\na"), [&b""[..], b"a"]);
    assert_eq!(lines("a\n\n"), [&b"a"[..], b""]);
    assert_eq!(lines("a\nb"), [b"a", b"b"]);
    assert_eq!(lines("\0\r\n\0"), [&b"\0\r"[..], b"\0"]);
}

/// Each line is answered by its number; the lines around one that is no form are not disturbed.
#[test]
fn whole_inputs() {
    assert_eq!(replay(b""), []);
    assert_eq!(replay(b"\n"), [NOT_A_LINE]);
    let input = "\n(put 5 \"61\" \"78797a\")\n(put 5 \"61\" \"78797A\")\r\n(get \"61\")\n\0\n(head \"62\")\n\
                 (delete \"61\")\n(delete \"61\")";
    let results = [9, 0, 9, 0, 9, 3, 0, 3];
    assert_eq!(replay(input.as_bytes()), results);
    assert_eq!(replay([input, "\n"].concat().as_bytes()), results);
    assert_eq!(replay([input, "\n\n"].concat().as_bytes()), [&results[..], &[9]].concat());
}

/// "A number too wide for its argument has result 2", whatever the state.
#[test]
fn wide_numbers() {
    let input = "(initiate 5 \"72\")\n(part 4294967297 1 \"\")\n(part 1 65537 \"\")\n(part 1 1 \"\")\n\
                 (commit 4294967297 (1))\n(commit 1 (65537))\n(commit 1 (1 65536))\n(abort 4294967297)\n\
                 (put 18446744073709551615 \"61\" \"\")\n(part 18446744073709551616 1 \"\")\n\
                 (uploads \"\")\n(commit 1 (1))\n(abort 1)";
    assert_eq!(replay(input.as_bytes()), [0, 2, 2, 0, 2, 2, 2, 2, 0, 9, 0, 0, 2]);
}

/// A key or value of any length is a form; more than 8 pairs are too many, but for system keys.
#[test]
fn pairs_are_judged() {
    let put = |pairs: String| format!("(put 5 \"61\" \"\"{pairs})\n");
    let key = |length: usize| format!(" (\"{}\" \"\")", "6b".repeat(length));
    let value = |length: usize| format!(" (\"6b\" \"{}\")", "76".repeat(length));
    let count = |count: usize| (1..=count).map(key).collect::<String>();
    let size = " (\"73697a65\" \"\")";
    let input = [
        put(key(32)),
        put(key(33)),
        put(key(256)),
        put(key(257)),
        put(value(64)),
        put(value(65)),
        put(value(256)),
        put(value(320)),
        put(count(8)),
        put(count(9)),
        put(count(8) + &size.repeat(200)),
        put(count(9) + &size.repeat(200)),
        put(size.repeat(254)),
        put(key(1).repeat(2)),
        put(key(0)),
    ];
    let results = [0, 2, 2, 2, 0, 2, 2, 2, 0, 2, 0, 2, 0, 2, 2];
    assert_eq!(replay(input.concat().as_bytes()), results);
}

/// "an arena and answer buffers of 65,536 bytes each": all of the arena can be held and read.
#[test]
fn room() {
    let put =
        |path: u8, length: usize| format!("(put 5 \"{path:02x}\" \"{}\")\n", "00".repeat(length));
    let full = (48..80).map(|path| put(path, 2000)).collect::<String>();
    let left = REPLAY_ROOM - 32 * 2000;
    let input = [full, put(80, left + 1), put(80, left), put(81, 0), put(82, 1)].concat();
    let results = replay(input.as_bytes());
    assert_eq!(results, [&[0; 32][..], &[5, 0, 0, 5]].concat());
    let joined: String =
        (1..=32).map(|part| format!("(part 1 {part} \"{}\")\n", "00".repeat(2000))).collect();
    let parts: Vec<String> = (1..=33).map(|part| part.to_string()).collect();
    let input = format!(
        "(initiate 5 \"61\")\n{joined}(part 1 33 \"{}\")\n(part 1 34 \"00\")\n(commit 1 ({}))\n(get \"61\")",
        "00".repeat(left),
        parts.join(" ")
    );
    assert_eq!(replay(input.as_bytes()), [&[0; 34][..], &[5, 0, 0]].concat());
}
