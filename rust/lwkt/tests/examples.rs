//! The examples of this tree, through the crate.
use lwkt::{check_trace, run_turns, show_turns, End, Finding, Refusal, StepFault, Word};
use std::fs;
use std::path::{Path, PathBuf};

fn examples() -> PathBuf {
    Path::new(env!("CARGO_MANIFEST_DIR")).join("../../examples")
}

// The files of a folder that end so, without that ending.
fn named(folder: &Path, ending: &str) -> Vec<PathBuf> {
    let mut found: Vec<PathBuf> = fs::read_dir(folder)
        .unwrap()
        .map(|entry| entry.unwrap().path())
        .filter(|path| path.to_str().unwrap().ends_with(ending))
        .map(|path| PathBuf::from(path.to_str().unwrap().strip_suffix(ending).unwrap()))
        .collect();
    found.sort();
    assert!(!found.is_empty());
    found
}

fn with(path: &Path, ending: &str) -> PathBuf {
    PathBuf::from(format!("{}{ending}", path.display()))
}

fn status(path: &Path) -> String {
    fs::read_to_string(with(path, ".status"))
        .unwrap_or_else(|_| "0".into())
        .trim()
        .into()
}

#[test]
fn scripts_have_their_reports() {
    for path in named(&examples(), ".json") {
        if with(&path, ".mode").exists() {
            continue;
        }
        let script = fs::read(with(&path, ".json")).unwrap();
        match run_turns(&script) {
            Ok(run) => {
                let wanted = fs::read_to_string(with(&path, ".out")).unwrap();
                let end = if run.end == End::Ended { "0" } else { "2" };
                assert_eq!((run.text, end.to_string()), (wanted, status(&path)), "{}", path.display());
            }
            Err(refusal) => {
                let wanted = fs::read_to_string(with(&path, ".err")).unwrap();
                assert_eq!(status(&path), "1", "{}", path.display());
                assert_eq!(refusal.to_string(), wanted.trim_end(), "{}", path.display());
            }
        }
    }
}

#[test]
fn runs_are_shown() {
    for (ending, arguments) in [(".lines", "turns"), (".svg", "turns --svg"), (".chains", "turns --chains")] {
        for path in named(&examples().join("shown"), ending) {
            let script = fs::read(with(&examples().join(path.file_name().unwrap()), ".json")).unwrap();
            let run = show_turns(&script, arguments).unwrap();
            assert_eq!(
                run.text,
                fs::read_to_string(with(&path, ending)).unwrap(),
                "{}",
                path.display()
            );
        }
    }
    let refused = show_turns(b"", "threads --chains");
    assert!(matches!(refused, Err(Refusal::Arguments { .. })));
}

#[test]
fn traces_are_judged() {
    for path in named(&examples().join("traces"), ".json") {
        let wanted = fs::read_to_string(with(&path, ".out")).unwrap();
        let found = match check_trace(&fs::read(with(&path, ".json")).unwrap()).unwrap() {
            Finding::Lawful => "lawful\n".into(),
            Finding::Unlawful(why) => why,
        };
        assert_eq!(found, wanted, "{}", path.display());
    }
}

#[test]
fn steps_answer_as_the_table_has_them() {
    let shared = Word::free(3).share(true).unwrap();
    assert_eq!(shared.count(), 1);
    assert_eq!(shared.take(), Err(StepFault::Busy));
    assert_eq!(shared.mark().share(true), Err(StepFault::Busy));
    assert_eq!(shared.mark().share(false).map(Word::count), Ok(2));
    assert_eq!(shared.again().and_then(Word::give_one), Ok(shared));
    assert_eq!(shared.give_clean(), Err(StepFault::NotHeld));
    let taken = Word::free(3).mark().take().unwrap();
    assert!(taken.is_exclusive() && !taken.is_marked());
    assert_eq!(taken.give_clean(), Ok(Word::free(3)));
    assert_eq!(taken.give_written(), Ok(Word::free(4)));
    assert_eq!(taken.again().unwrap().give_written(), Err(StepFault::NotLast));
    assert_eq!(Word::free(u64::MAX).take(), Err(StepFault::Worn));
    assert_eq!(Word(65535 << 2).share(false), Err(StepFault::Full));
}
