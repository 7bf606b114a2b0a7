//! The examples of the repository, and forms of scripts that are none.

use crate::{run, Fault};
use std::ffi::OsString;
use std::fs;
use std::path::Path;

/// The status and the lines of a script.
fn said(words: &str, script: &[u8]) -> (u8, String) {
    let words: Vec<OsString> = words.split_whitespace().map(OsString::from).collect();
    let mut output = Vec::new();
    let status = run(&words, script, &mut output).unwrap_or_else(|fault| fault.status());
    (status, String::from_utf8(output).expect("lines are text"))
}

#[test]
fn each_example_prints_what_stands_beside_it() {
    let top = if cfg!(feature = "by_hand") { "../../.." } else { "../.." };
    let folder = Path::new(env!("CARGO_MANIFEST_DIR")).join(top).join("examples");
    let beside = |script: &Path, end: &str| fs::read_to_string(script.with_extension(end));
    let mut tried = 0;
    for entry in fs::read_dir(folder).expect("the examples are there") {
        let script = entry.expect("a file").path();
        let words = beside(&script, "words").unwrap_or_else(|_| "apply".into());
        if script.extension().is_none_or(|end| end != "json") || words.starts_with("cluster") {
            continue;
        }
        let status = beside(&script, "status").map_or(0, |status| status.trim().parse().expect("a number"));
        let lines = beside(&script, "out").expect("an example has its lines");
        let text = fs::read(&script).expect("a script");
        assert_eq!(said(&words, &text), (status, lines), "{}", script.display());
        tried += 1;
    }
    assert!(tried >= 20, "{tried} examples");
}

#[test]
fn replies_are_refused_by_name() {
    let script = br#"{"replies":[[0,12,8],[0,12,8],[0,11,8],[4,1,1]]}"#;
    let lines = "none\nnone\nrefused Differs\nrefused Stranger\n";
    assert_eq!(said("end --logs 4 --degree 2", script), (0, lines.into()));
    let script = br#"{"replies":[[0,5,5],[1,3,2]]}"#;
    assert_eq!(said("end --logs 2 --degree 2", script), (0, "pev 5 rv 5\ninconsistent\n".into()));
}

/// From two logs that both hold each tag to three of which one does.
#[test]
fn a_recovery_opens_logs_of_another_shape() {
    let script = r#"{"config":{"coordinators":3,"degree":2,"logs":2,"proxies":1,"shards":[""]},"steps":[
        {"commit":{"epoch":257,"proxy":0,"step":1,"batch":[{"set":{"key":"61","value":"01"}}],"logs":[0,1]}},
        {"recover":{"ballot":513,"logs":3,"degree":1,"read":[0,1],"lock":[1],"write":[0,1],"mark":[0,1,2]}},
        {"mark":{"storage":0,"epoch":513,"log":2}},
        {"pull":{"storage":0,"epoch":513,"log":1}},
        {"commit":{"epoch":513,"proxy":0,"step":1,"batch":[{"compare_and_clear":{"key":"61","value":"01"}}],"logs":[0,1,2]}},
        {"commit":{"epoch":513,"proxy":0,"step":2,"batch":[{"set":{"key":"62","value":"02"}}],"logs":[0,1,2]}},
        {"pull":{"storage":0,"epoch":513,"log":0}},
        {"recover":{"ballot":769,"read":[0,1],"lock":[0,1],"write":[0,1],"mark":[0,1,2]}},
        {"recover":{"ballot":769,"read":[],"lock":[2],"write":[0,1],"mark":[0,1,2]}},
        {"mark":{"storage":0,"epoch":769,"log":0}}]}"#;
    let lines = [
        "commit 257 0 2 committed",
        "recover 513 chosen pev 0 rv 2",
        "mark 0 513 0",
        "pull 0 refused NotMine",
        "commit 513 0 4 committed",
        "commit 513 0 6 committed",
        "pull 0 513 6",
        "recover 769 locking",
        "recover 769 chosen pev 4 rv 6",
        "mark 0 769 6",
        "storage 0 769 6 floor 4 rows 1",
        "62 02",
    ];
    let (status, output) = said("simulate", script.as_bytes());
    assert_eq!((status, output.lines().collect::<Vec<_>>()), (0, lines.to_vec()));
    let (status, journals) = said("simulate --journal", script.as_bytes());
    assert!(status == 0 && journals.contains(r#"{"begun":{"degree":1,"logs":3}}"#));
    assert_eq!(said("audit", journals.as_bytes()), (0, "audit ok\n".into()));
    let other = journals.replace(r#"{"begun":{"degree":1,"logs":3}}"#, r#"{"begun":{"degree":2,"logs":3}}"#);
    assert_eq!(said("audit", other.as_bytes()).0, 1);
}

#[test]
fn shapes_have_both_of_their_numbers() {
    let script = |shape: &str| {
        let config = r#"{"coordinators":1,"degree":1,"logs":1,"proxies":1,"shards":[""]}"#;
        let step = format!(r#"{{"recover":{{{shape}"ballot":513,"read":[],"lock":[],"write":[],"mark":[]}}}}"#);
        said("simulate", format!(r#"{{"config":{config},"steps":[{step}]}}"#).as_bytes())
    };
    for good in ["", r#""logs":1,"degree":1,"#, r#""degree":16,"logs":16,"#] {
        assert!(script(good).1.starts_with("recover 513 reading\n"), "{good}");
    }
    for bad in [
        r#""logs":3,"#,
        r#""degree":1,"#,
        r#""logs":3,"degree":0,"#,
        r#""logs":3,"degree":4,"#,
        r#""logs":17,"degree":1,"#,
        r#""logs":null,"degree":null,"#,
    ] {
        assert_eq!(script(bad), (Fault::BadScript.status(), String::new()), "{bad}");
    }
}

#[test]
fn what_is_no_script_prints_nothing() {
    let config = r#"{"coordinators":1,"degree":1,"logs":1,"proxies":1,"shards":[""]}"#;
    let asked = |ask: &str, tell: &str| {
        let act = format!(r#"{{"asked":{{"ask":{ask},"from":{{"storage":{{"tag":0}}}},"tell":{tell}}}}}"#);
        let node = r#"{"log":{"epoch":257,"index":0}}"#;
        let journal = format!(r#"{{"entries":[{{"act":{act},"stamp":1}}],"last":null,"node":{node}}}"#);
        said("audit", format!(r#"{{"config":{config},"journals":[{journal}]}}"#).as_bytes())
    };
    let lock = r#"{"log":{"lock":{"epoch":257}}}"#;
    let seeded = r#"{"log":{"seeded":{}}}"#;
    assert_eq!(asked(lock, seeded), (1, "not a run at 0\n".into()));
    let bad = [
        (r#"{"log":{"lock":[257]}}"#, seeded),
        (r#"{"log":{"lock":{"epoch":255}}}"#, seeded),
        (r#"{"log":{"lock":{"epoch":257,"more":0}}}"#, seeded),
        (r#"{"log":{"lock":{"epoch":257}},"cell":{}}"#, seeded),
        (r#"{"log":{"peek":{"after":0,"epoch":257,"most":101,"tag":0}}}"#, seeded),
        (r#"{"log":{"push":{"bodies":[],"epoch":257,"known":2,"mark":null,"prev":1,"version":2}}}"#, seeded),
        (r#"{"log":{"push":{"bodies":[],"epoch":257,"known":0,"prev":1,"version":2}}}"#, seeded),
        (lock, r#"{"log":"seeded"}"#),
        (lock, r#"{"log":{"seeded":[]}}"#),
        (lock, r#"{"log":{"marked":{"state":[]}}}"#),
    ];
    for (ask, tell) in bad {
        assert_eq!(asked(ask, tell), (Fault::BadScript.status(), String::new()), "{ask} {tell}");
    }
}
