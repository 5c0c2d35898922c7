//! Files that are written, and the report for machines.

use std::fs;

use serde_json::Value;

use crate::rig::{call, code, repository, Folder};

const RUN: &str = "--symbols examples/board/symbols --lines examples/board/lines \
                   --mark key=0xff40:64 --budget 400";

fn report(words: &str) -> Value {
    let answer = call(&format!("{words} --json -"));
    serde_json::from_str(&answer.out).expect("a report")
}

#[test]
fn the_report_for_machines() {
    let report = report(&format!("examples/board/build31.hex {RUN} --keep key --reach stay"));
    assert_eq!(report["reply"]["number"], 10);
    assert_eq!((&report["steps"], &report["holds"]), (&Value::from(400), &Value::from(false)));
    assert_eq!(report["pc"]["symbol"], "stay");
    assert_eq!(report["registers"][13]["content"], 3);
    // r8 is made from key words.
    assert_eq!(
        (&report["registers"][8]["content"], &report["registers"][8]["marked"]),
        (&Value::Null, &Value::from(true))
    );
    let check = &report["checks"][0];
    assert_eq!(
        (&check["check"], &check["holds"]),
        (&Value::from("--keep key"), &Value::from(false))
    );
    assert_eq!(
        (&check["event"]["step"], &check["event"]["address"]),
        (&Value::from(131), &Value::from(0xff7c))
    );
    assert_eq!(check["event"]["instruction"], "str r5 12 r0");
    assert_eq!(check["event"]["pc"]["symbol"], "recipe+0x10");
    assert_eq!(report["regions"][0]["marked"], 16);
    assert_eq!(report["moments"][0]["steps"].as_array().map(Vec::len), Some(20));
    assert_eq!(report["checks"][1]["holds"], true);
}

#[test]
fn the_reason_for_machines() {
    let report = report("examples/board/leak.hex --mark key=0xff40:64 --budget 400");
    assert_eq!(report["reply"]["number"], 14);
    let cause = report["why"]["causes"][0].as_array().expect("a cause");
    assert_eq!(cause[0]["place"], "tf");
    assert_eq!(cause[0]["origin"]["instruction"], "cmpeqi r8 0");
    assert_eq!(cause[3]["byte"], 0xff40);
    assert_eq!(cause[3]["origin"], Value::Null);
}

#[test]
fn all_files_at_once() {
    let folder = Folder::new();
    let image = repository().join("examples/board/build31.hex");
    let files = "--json j --trace t --plot p --save-state s --save-memory m";
    let words = format!("{} --mark key=0xff40:64 --keep key --budget 300 {files}", image.display());
    let answer = folder.call(&words);
    // A check that failed is no reason to write less.
    assert_eq!((answer.status, answer.error.as_str()), (Some(1), ""));
    assert_eq!(folder.names(), ["j", "m", "p", "s", "t"]);
    let text = |name: &str| fs::read_to_string(folder.path(name)).unwrap();
    assert!(serde_json::from_str::<Value>(&text("j")).is_ok());
    assert!(text("p").starts_with("<svg ") && text("p").trim_end().ends_with("</svg>"));
    assert_eq!(text("t").lines().count(), 300);
    assert_eq!(fs::read(folder.path("m")).unwrap().len(), 65_536);
    assert!(answer.line("reply").starts_with("reply    10"));
    // They are replaced as a whole.
    folder.call(&words.replace("300", "20"));
    assert_eq!(text("t").lines().count(), 20);
    assert_eq!(folder.names().len(), 5);
}

#[test]
fn what_cannot_be_written() {
    let folder = Folder::new();
    folder.write("image", code("stay sj stay"));
    for option in ["--json", "--trace", "--plot", "--save-state"] {
        for place in ["no/file", ".", "/dev/full"] {
            let answer = folder
                .call(&format!("image --size 64 --budget 3 {option} {place} --save-memory kept"));
            assert_eq!((answer.status, answer.out.as_str()), (Some(2), ""), "{option} {place}");
            assert_eq!(folder.names(), ["image"], "{option} {place}");
        }
    }
}

#[test]
fn a_link_stays_one() {
    let folder = Folder::new();
    folder.write("image", code("stay sj stay"));
    folder.write("file", "old");
    std::os::unix::fs::symlink("file", folder.path("link")).unwrap();
    assert_eq!(folder.call("image --size 64 --budget 3 --save-memory link").status, Some(0));
    assert!(folder.path("link").is_symlink());
    assert_eq!(fs::read(folder.path("file")).unwrap().len(), 64);
}

#[test]
fn rights_of_files() {
    use std::os::unix::fs::PermissionsExt;
    let folder = Folder::new();
    folder.write("image", code("stay sj stay"));
    folder.write("old", "");
    fs::set_permissions(folder.path("old"), fs::Permissions::from_mode(0o640)).unwrap();
    let files = "--save-state s --save-memory m --json old";
    assert_eq!(folder.call(&format!("image --size 64 --budget 3 {files}")).status, Some(0));
    let mode = |name: &str| fs::metadata(folder.path(name)).unwrap().permissions().mode() & 0o777;
    // What holds marked contents is for its owner alone; a file that was there keeps its rights.
    assert_eq!(["s", "m", "old"].map(mode), [0o600, 0o600, 0o640]);
}
