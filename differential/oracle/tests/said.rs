//! Holds the files of questions and answers beside this project against the Rust.

use oracle::protocol;

/// Says what is wrong before it fails: a panic's own words are silenced here.
fn hold(text: &str) {
    protocol::answer_panics();
    let wrong: Vec<String> = text.lines().filter_map(disagreement).collect();
    for line in &wrong {
        println!("{line}");
    }
    assert!(wrong.is_empty());
}

fn disagreement(line: &str) -> Option<String> {
    let question = line.split(" => ").next()?;
    let answer = protocol::answer(question)?;
    let right = format!("{question} => {answer}");
    (line != right).then(|| format!("said:   {line}\nanswer: {right}"))
}

#[test]
fn the_papers_samples_agree() {
    hold(include_str!("../../samples.txt"));
}

#[test]
fn the_differences_are_as_told() {
    hold(include_str!("../../differences.txt"));
}

/// The answers are too long for a file of them.
#[test]
fn the_crate_has_no_limit_where_we_have_one() {
    let (most, prefix) = ("61".repeat(65_535), "61".repeat(65_536));
    hold(&format!("prefix 61*65536 => ok i:{prefix} x:{most}62"));
    let value = "00".repeat(1_048_552);
    hold(&format!(
        "compact 0 - 61@0V={value} => ok 0:61@0V={value} |"
    ));
    hold(&format!(
        "compact 0 - 61@0V | rV={value} => ok 0:61@0V={value} | 0"
    ));
}
