//! The exercises of the repository, and their answers.
use kaolinsilk::{Subject, judge};
use std::fs;
use std::path::{Path, PathBuf};

/// Exercises whose answers are judged: one of values, one of costs, one of a model.
const NAMES: [&str; 3] = ["double", "sum", "seven"];

fn exercises() -> PathBuf {
    Path::new(env!("CARGO_MANIFEST_DIR")).join("../../../exercises")
}

fn exercise(name: &str) -> String {
    fs::read_to_string(exercises().join(format!("{name}.exercise"))).unwrap()
}

#[test]
fn right_answers_pass_and_no_others() {
    for name in NAMES {
        let (exercise, mut judged) = (exercise(name), 0);
        for file in fs::read_dir(exercises().join("answers").join(name)).unwrap() {
            let path = file.unwrap().path();
            let verdict = judge(&exercise, fs::read(&path).unwrap()).unwrap();
            let is_right = path
                .file_name()
                .unwrap()
                .to_str()
                .unwrap()
                .starts_with("right-");
            assert_eq!(verdict.passed, is_right, "{}", path.display());
            assert_eq!(
                (verdict.input.is_none(), verdict.what.is_empty()),
                (is_right, is_right)
            );
            judged += 1;
        }
        assert!(judged > 4);
    }
}

#[test]
fn what_is_no_program_has_not_passed() {
    for submission in [&b""[..], b"\0", b"\xff", b"pardo 1\n"] {
        let verdict = judge(exercise("sum"), submission).unwrap();
        assert_eq!((verdict.passed, verdict.input), (false, Some(1)));
        assert!(verdict.what.starts_with("the line \""), "{}", verdict.what);
    }
}

#[test]
fn an_exercise_is_refused() {
    let sum = exercise("sum");
    for (text, line, kind) in [
        (String::new(), 1, "BadHeader"),
        (sum.replace("title", "tilte"), 2, "UnknownKey"),
        (sum.replace("model EREW", "model"), 4, "BadLine"),
        (sum.replace("input n=4 A", "input n=4 B"), 29, "Unknown"),
    ] {
        let error = judge(text, "").unwrap_err();
        assert_eq!(error.subject(), Subject::Exercise);
        assert_eq!(
            (error.line(), error.column(), error.kind()),
            (Some(line), None, kind)
        );
        assert!(error.to_string().starts_with(&format!("line {line}: ")));
        assert!(!error.sentence().starts_with("line "));
    }
}
