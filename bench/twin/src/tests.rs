//! The lines of small scripts, worked out by hand.

use crate::{run, Fault};
use std::ffi::OsString;

fn apply(script: &str) -> Result<String, Fault> {
    let mut output = Vec::new();
    run(&[OsString::from("apply")], script.as_bytes(), &mut output)?;
    Ok(String::from_utf8(output).expect("lines are text"))
}

#[track_caller]
fn prints(operations: &str, lines: &[&str]) {
    let output = apply(&format!(r#"{{"ops":[{operations}]}}"#)).expect("a good script");
    assert_eq!(output.lines().collect::<Vec<_>>(), lines);
}

#[track_caller]
fn is_bad(script: &str) {
    assert_eq!(apply(script), Err(Fault::BadScript), "{script}");
}

fn set(key: usize, value: usize) -> String {
    let (key, value) = ("00".repeat(key), "00".repeat(value));
    format!(r#"{{"set":{{"key":"{key}","value":"{value}"}}}}"#)
}

fn batch(version: u64, mutations: &[String]) -> String {
    let mutations = mutations.join(",");
    format!(r#"{{"apply":{{"version":{version},"batch":[{mutations}]}}}}"#)
}

#[test]
fn an_empty_batch_and_an_undo() {
    prints(
        r#"{"advance":{"version":4}},{"apply":{"version":5,"batch":[]}},{"undo":{"to":4}}"#,
        &[
            "ok 4 floor 0 undo 0",
            "ok 5 floor 0 undo 0",
            "ok 4 floor 0 undo 0",
        ],
    );
}

#[test]
fn an_equal_value_is_cleared_and_put_back() {
    prints(
        r#"{"apply":{"version":1,"batch":[{"set":{"key":"61","value":"01"}},{"set":{"key":"62","value":"02"}}]}},
           {"apply":{"version":2,"batch":[{"compare_and_clear":{"key":"61","value":"01"}},
            {"compare_and_clear":{"key":"62","value":"01"}},{"compare_and_clear":{"key":"63","value":""}}]}},
           {"undo":{"to":1}}"#,
        &[
            "ok 1 floor 0 undo 2",
            "ok 2 floor 0 undo 3",
            "ok 1 floor 0 undo 2",
            "61 01",
            "62 02",
        ],
    );
}

#[test]
fn an_undo_gives_the_value_before() {
    prints(
        r#"{"apply":{"version":5,"batch":[{"set":{"key":"61","value":"01"}}]}},
           {"apply":{"version":6,"batch":[{"set":{"key":"61","value":"02"}},
            {"clear":{"begin":"61","end":"63"}},{"add":{"key":"61","param":"05"}}]}},
           {"undo":{"to":5}}"#,
        &[
            "ok 5 floor 0 undo 1",
            "ok 6 floor 0 undo 2",
            "ok 5 floor 0 undo 1",
            "61 01",
        ],
    );
}

#[test]
fn parameters_fit_the_values() {
    prints(
        r#"{"apply":{"version":1,"batch":[{"set":{"key":"61","value":"ff"}},{"set":{"key":"62","value":"ff"}}]}},
           {"apply":{"version":2,"batch":[{"add":{"key":"61","param":"02"}},{"add":{"key":"62","param":"0001"}},
            {"and":{"key":"63","param":"0f"}},{"or":{"key":"64","param":"0f"}},
            {"max":{"key":"61","param":"0001"}},{"min":{"key":"62","param":"0002"}}]}}"#,
        &[
            "ok 1 floor 0 undo 2",
            "ok 2 floor 0 undo 6",
            "61 0001",
            "62 ff01",
            "63 0f",
            "64 0f",
        ],
    );
}

#[test]
fn each_combination_with_a_value_and_with_none() {
    // 61 holds 0c80 and 62 nothing; each batch is undone.
    let cases = [
        ("add", "0490", "1010", "0490"),
        ("add", "04", "10", "04"),
        ("and", "0aff", "0880", "0aff"),
        ("and", "0affff", "088000", "0affff"),
        ("or", "0301", "0f81", "0301"),
        ("xor", "0580", "0900", "0580"),
        ("max", "0d7f", "0c80", "0d7f"),
        ("max", "0d80", "0d80", "0d80"),
        ("max", "0b", "0c", "0b"),
        ("min", "0d7f", "0d7f", "0d7f"),
        ("min", "000001", "0c8000", "000001"),
        ("min", "0d", "0c", "0d"),
        ("add", "", "-", "-"),
        ("and", "", "-", "-"),
        ("max", "", "-", "-"),
        ("xor", "", "-", "-"),
    ];
    for (name, param, present, absent) in cases {
        // A key whose value stays has no row.
        let rows = if present == "0c80" { 2 } else { 3 };
        let present = format!("61 {present}");
        let absent = format!("62 {absent}");
        prints(
            &format!(
                r#"{{"apply":{{"version":1,"batch":[{{"set":{{"key":"61","value":"0c80"}}}}]}}}},
                   {{"apply":{{"version":2,"batch":[{{"{name}":{{"key":"61","param":"{param}"}}}},
                    {{"{name}":{{"param":"{param}","key":"62"}}}}]}}}}"#
            ),
            &[
                "ok 1 floor 0 undo 1",
                &format!("ok 2 floor 0 undo {rows}"),
                &present,
                &absent,
            ],
        );
    }
}

#[test]
fn a_comparison_is_within_the_limits_of_a_set() {
    let compared = |value: usize| {
        let compare = format!(r#"{{"compare_and_clear":{{"key":"","value":"{}"}}}}"#, "00".repeat(value));
        batch(1, &[compare])
    };
    prints(
        &[compared(100_001), compared(100_000)].join(","),
        &["refused ValueTooLong", "ok 1 floor 0 undo 0"],
    );
}

#[test]
fn a_range_is_cleared_from_its_begin_up_to_its_end() {
    prints(
        r#"{"apply":{"version":1,"batch":[{"set":{"key":"","value":""}},{"set":{"key":"61","value":"01"}},
            {"set":{"key":"6100","value":"02"}},{"set":{"key":"62","value":"03"}},{"set":{"key":"63","value":"04"}}]}},
           {"apply":{"version":2,"batch":[{"clear":{"begin":"6100","end":"63"}},{"clear":{"begin":"63","end":"63"}}]}},
           {"apply":{"version":3,"batch":[{"clear":{"begin":"","end":"64"}},{"set":{"key":"61","value":"01"}}]}},
           {"undo":{"to":2}}"#,
        &[
            "ok 1 floor 0 undo 5",
            "ok 2 floor 0 undo 7",
            "ok 3 floor 0 undo 9",
            "ok 2 floor 0 undo 7",
            "- -",
            "61 01",
            "63 04",
        ],
    );
}

#[test]
fn a_refused_batch_changes_nothing() {
    prints(
        r#"{"apply":{"version":1,"batch":[{"clear":{"begin":"62","end":"61"}}]}},
           {"apply":{"version":1,"batch":[{"clear":{"begin":"61","end":"61"}}]}},
           {"apply":{"version":1,"batch":[]}}"#,
        &[
            "refused Inverted",
            "ok 1 floor 0 undo 0",
            "refused NotAfter",
        ],
    );
}

#[test]
fn the_floor_bounds_undo() {
    prints(
        r#"{"apply":{"version":8,"batch":[{"set":{"key":"61","value":"01"}}]}},
           {"apply":{"version":9,"batch":[{"set":{"key":"61","value":"02"}}]}},
           {"forget":{"through":8}},{"undo":{"to":7}},{"forget":{"through":10}}"#,
        &[
            "ok 8 floor 0 undo 1",
            "ok 9 floor 0 undo 2",
            "ok 9 floor 8 undo 1",
            "refused BelowFloor",
            "refused AboveApplied",
            "61 02",
        ],
    );
}

#[test]
fn versions_are_used_again_after_an_undo() {
    prints(
        r#"{"apply":{"version":1,"batch":[{"set":{"key":"61","value":"01"}}]}},
           {"apply":{"version":2,"batch":[{"set":{"key":"61","value":"02"}}]}},
           {"apply":{"version":3,"batch":[{"set":{"key":"61","value":"03"}},{"set":{"key":"62","value":"03"}}]}},
           {"undo":{"to":1}},{"undo":{"to":5}},{"advance":{"version":1}},
           {"apply":{"version":2,"batch":[{"set":{"key":"61","value":"04"}},{"set":{"key":"61","value":"01"}}]}},
           {"forget":{"through":1}},{"forget":{"through":0}},{"undo":{"to":1}}"#,
        &[
            "ok 1 floor 0 undo 1",
            "ok 2 floor 0 undo 2",
            "ok 3 floor 0 undo 4",
            "ok 1 floor 0 undo 1",
            "ok 1 floor 0 undo 1",
            "refused NotAfter",
            "ok 2 floor 0 undo 1",
            "ok 2 floor 1 undo 0",
            "ok 2 floor 1 undo 0",
            "ok 1 floor 1 undo 0",
            "61 01",
        ],
    );
}

#[test]
fn limits_are_tested_in_their_order() {
    let inverted = r#"{"clear":{"begin":"01","end":"00"}}"#.to_string();
    let long_end = format!(
        r#"{{"clear":{{"begin":"01","end":"{}"}}}}"#,
        "00".repeat(10_001)
    );
    let operations = [
        batch(1, &[set(10_000, 1)]),
        batch(2, &[set(0, 100_000)]),
        batch(3, &vec![set(1, 1); 1_000]),
        batch(4, &[set(10_001, 100_001)]),
        batch(4, &[set(1, 100_001)]),
        batch(4, &vec![set(10_001, 1); 1_001]),
        batch(4, &[inverted.clone(), set(10_001, 1)]),
        batch(4, &[set(1, 100_001), inverted.clone()]),
        batch(4, &[long_end]),
        batch(0, &[inverted]),
        batch(3, &[]),
        r#"{"undo":{"to":0}}"#.to_string(),
    ];
    prints(
        &operations.join(","),
        &[
            "ok 1 floor 0 undo 1",
            "ok 2 floor 0 undo 2",
            "ok 3 floor 0 undo 3",
            "refused KeyTooLong",
            "refused ValueTooLong",
            "refused TooMany",
            "refused Inverted",
            "refused ValueTooLong",
            "refused KeyTooLong",
            "refused Inverted",
            "refused NotAfter",
            "ok 0 floor 0 undo 0",
        ],
    );
}

#[test]
fn the_last_of_two_members_stands() {
    let ok = "ok 4 floor 0 undo 0\n";
    for script in [
        r#" {"ops":5,"ops":[{"advance":{"version":4}}]} "#,
        r#"{"ops":[{"advance":{"version":"x","version":4}}]}"#,
        r#"{"ops":[{"advance":[],"advance":{"version":4}}]}"#,
        r#"{"ops":[{"\u0061dvance":{"v\u0065rsion":4}}]}"#,
        r#"{"ops":[{"apply":{"batch":[{"set":{}}],"version":4,"batch":[]}}]}"#,
    ] {
        assert_eq!(apply(script).as_deref(), Ok(ok), "{script}");
    }
}

#[test]
fn scripts_that_are_bad() {
    for script in [
        "",
        "{",
        "{}",
        "[]",
        r#"{"ops":null}"#,
        r#"{"ops":{}}"#,
        r#"{"ops":[]}x"#,
        r#"{"ops":[],"more":1}"#,
        r#"{"ops":[],}"#,
        r#"{"ops":[{}]}"#,
        r#"{"ops":["advance"]}"#,
        r#"{"ops":[{"ADVANCE":{"version":4}}]}"#,
        r#"{"ops":[{"advance":4}]}"#,
        r#"{"ops":[{"advance":[4]}]}"#,
        r#"{"ops":[{"advance":{}}]}"#,
        r#"{"ops":[{"advance":{"version":4,"to":4}}]}"#,
        r#"{"ops":[{"advance":{"version":4},"undo":{"to":4}}]}"#,
        r#"{"ops":[{"undo":{"to":4,"to":"4"}}]}"#,
        r#"{"ops":[{"apply":{"version":4}}]}"#,
        r#"{"ops":[{"apply":{"version":4,"batch":{}}}]}"#,
        r#"{"ops":[{"apply":[4,[]]}]}"#,
        r#"{"ops":[{"apply":{"version":4,"batch":[{}]}}]}"#,
        r#"{"ops":[{"apply":{"version":4,"batch":[{"set":["61","62"]}]}}]}"#,
        r#"{"ops":[{"apply":{"version":4,"batch":[{"set":{"key":"61","param":"62"}}]}}]}"#,
        r#"{"ops":[{"apply":{"version":4,"batch":[{"add":{"key":"61","value":"62"}}]}}]}"#,
        r#"{"ops":[{"apply":{"version":4,"batch":[{"clear":{"begin":"61"}}]}}]}"#,
        r#"{"ops":[{"apply":{"version":4,"batch":[{"compare_and_clear":{"key":"61","param":"62"}}]}}]}"#,
    ] {
        is_bad(script);
    }
    for number in [
        "4611686018427387904",
        "18446744073709551616",
        "-0",
        "-1",
        "1.0",
        "1e0",
        "01",
        "\"1\"",
        "null",
    ] {
        is_bad(&format!(
            r#"{{"ops":[{{"advance":{{"version":{number}}}}}]}}"#
        ));
    }
    for hex in ["6", "6A", "0x", "6g", " 61", "é"] {
        is_bad(&format!(
            r#"{{"ops":[{{"apply":{{"version":1,"batch":[{{"clear":{{"begin":"","end":"{hex}"}}}}]}}}}]}}"#
        ));
    }
    let greatest = r#"{"ops":[{"advance":{"version":4611686018427387903}}]}"#;
    assert_eq!(
        apply(greatest).as_deref(),
        Ok("ok 4611686018427387903 floor 0 undo 0\n")
    );
}

#[test]
fn words() {
    let words = |text: &str| text.split(' ').map(OsString::from).collect::<Vec<_>>();
    let script = br#"{"ops":[]}"#.as_slice();
    assert_eq!(run(&words("apply --store map"), script, Vec::new()), Ok(0));
    assert_eq!(
        run(&words("apply --store"), script, Vec::new()),
        Err(Fault::BadWords)
    );
    assert_eq!(run(&words("end"), script, Vec::new()), Err(Fault::BadWords));
}
