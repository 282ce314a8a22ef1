//! Document 01's own examples and the rules on lines, by the original and by the
//! second implementation. These are the readings that everything else leans on.

use oracle::comparison::{cut, Driver};
use oracle::histories::Language;

/// The answers to these lines, which must be the same by both.
fn answers(language: Language, input: &[u8]) -> Vec<String> {
    let original = Driver::Original.run(language, input);
    let second = Driver::Second.run(language, input);
    assert!(!original.broke && !second.broke);
    assert_eq!(original.text, second.text);
    let lines = cut(&original.text);
    let texts = lines.iter().map(|line| {
        let line = line
            .strip_suffix(b"\r\n")
            .expect("every answer has its CRLF");
        String::from_utf8(line.to_vec()).expect("answers are plain text")
    });
    texts.collect()
}

fn replay(lines: &[String]) -> Vec<String> {
    let input: String = lines.iter().map(|line| format!("{line}\r\n")).collect();
    answers(Language::Replay, input.as_bytes())
}

/// The values of the last answer.
fn last_values(lines: &[&str]) -> String {
    let lines: Vec<String> = lines.iter().map(|line| line.to_string()).collect();
    let answer = replay(&lines).pop().expect("an answer");
    let (answer, _) = answer.split_once(' ').expect("a state");
    let (_, values) = answer.split_once(',').expect("a code");
    values.to_string()
}

/// One part of the state after the last line.
fn last_state(lines: &[String], part: &str) -> String {
    let answer = replay(lines).pop().expect("an answer");
    let mut parts = answer.split(' ');
    let found = parts.find_map(|text| text.strip_prefix(part)?.strip_prefix('='));
    found.expect("the part is there").to_string()
}

fn notes(paths: impl Iterator<Item = (u32, u32, u32)>) -> Vec<String> {
    paths
        .map(|(endpoint, cluster, attribute)| format!("note,{endpoint},{cluster},{attribute}"))
        .collect()
}

#[test]
fn document_01s_trace() {
    let input = "new,2|add,1000,1,7,1,60,0,0|done,1,0|wake,0,0|note,3,6,0|wake,0,0|\
                 report,1999,0,0,0|report,2000,0,0,0|attr,1,3,6,0|attr,1,3,6,1|done,1,2|\
                 wake,0,0|done,1,0|";
    let output = "1,0,2|2,0,1|3,0,1|4,0,31000|5,0,1|6,0,2000|7,0,0|8,0,1|9,0,1|10,0,0|11,0,1|\
                  12,0,4000|13,2,0";
    let given = answers(Language::Trace, input.replace('|', "\r\n").as_bytes());
    assert_eq!(given.join("|"), output);
}

#[test]
fn marked_times() {
    assert_eq!(last_values(&["backoff,1,60"]), "0,2");
    assert_eq!(last_values(&["backoff,6,60"]), "0,60");
    assert_eq!(last_values(&["backoff,255,65535"]), "0,65535");
    assert_eq!(last_values(&["backoff,3,0"]), "0,2");
    assert_eq!(last_values(&["dueafter,61,0"]), "0,31");
    assert_eq!(last_values(&["dueafter,5,1"]), "0,3");
    assert_eq!(last_values(&["submax,60,55,0,65535"]), "0,65");
}

#[test]
fn marked_logs() {
    let level_1 = notes((0..16).map(|n| (1, 6, n)).chain([(2, 6, 0)]));
    assert_eq!(last_state(&level_1, "log"), "1:6:4294967295:16;2:6:0:17");
    let level_2 = notes((1..=17).map(|n| (1, n, 0)));
    assert_eq!(last_state(&level_2, "log"), "1:4294967295:4294967295:17");
    let all_wild = notes((1..=17).map(|n| (n, 6, 0)));
    assert_eq!(
        last_state(&all_wild, "log"),
        "65535:4294967295:4294967295:17"
    );
}

#[test]
fn marked_ids() {
    let resume = "resume,4294967294,1,7,1,60,0,0";
    let add = "add,0,1,7,1,60,0,0";
    assert_eq!(last_values(&[resume, add]), "0,4294967295");
    assert_eq!(last_values(&[resume, add, add]), "4");
}

#[test]
fn marked_order() {
    let mut lines: Vec<String> = (1..=3)
        .map(|id| format!("resume,{id},1,7,0,60,0,0"))
        .collect();
    lines.extend(["report,0,0,0,0".to_string(), "done,1,0".to_string()]);
    let stored = last_state(&lines, "stored");
    let ids: Vec<&str> = stored.split(';').map(|one| &one[..1]).collect();
    assert_eq!(ids, ["3", "2", "1"]);
}

#[test]
fn lines_are_cut_at_crlf_only() {
    let codes = |input: &[u8]| -> Vec<String> { answers(Language::Trace, input) };
    assert!(codes(b"").is_empty());
    assert_eq!(codes(b"\r\n"), ["1,8,0"]);
    assert_eq!(codes(b"new,1\r\n"), ["1,0,1"]);
    assert_eq!(codes(b"new,1"), ["1,0,1"]);
    assert_eq!(codes(b"new,1\r"), ["1,8,0"]);
    assert_eq!(codes(b"new,1\n"), ["1,8,0"]);
    assert_eq!(codes(b"new,1\r\r\n"), ["1,8,0"]);
    assert_eq!(codes(b"new,1\nnew,2\r\nnew,3\r\n"), ["1,8,0", "2,0,3"]);
    assert_eq!(
        codes(b"new,01\r\nnew,256\r\nnew,81\r\n"),
        ["1,8,0", "2,8,0", "3,5,0"]
    );
    assert_eq!(
        codes(b"clear\r\nnew,+1\r\nnew,1,\r\n"),
        ["1,8,0", "2,8,0", "3,8,0"]
    );
}

#[test]
fn a_refused_new_leaves_the_table() {
    let input = b"new,1\r\nadd,0,1,7,1,60,0,0\r\nnew,0\r\nadd,0,1,7,1,60,0,0\r\n";
    let given = answers(Language::Trace, input);
    assert_eq!(given, ["1,0,1", "2,0,1", "3,5,0", "4,1,0"]);
}

#[test]
fn reading_stops_after_a_million_lines() {
    let input = b"wake,0,0\r\n".repeat(1_000_001);
    assert_eq!(answers(Language::Trace, &input).len(), 1_000_000);
}
