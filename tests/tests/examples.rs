//! The files of examples/: the jobs are those of `decks`, and the reports are those of the program, the C entry and the reference.

use siting_tests::decks::{examples, folder};
use siting_tests::program::{command, printed};
use siting_tests::{entry, reference};
use std::collections::BTreeSet;
use std::fs::{read, read_dir, read_to_string, File};

#[test]
fn the_files_are_the_examples() {
    let all = read_dir(folder()).unwrap().map(|f| f.unwrap().file_name().into_string().unwrap());
    let files: BTreeSet<String> = all.filter(|f| f != "report.c").collect();
    let names = examples().into_iter().flat_map(|(name, _)| [format!("{name}.job"), format!("{name}.report")]).collect();
    assert_eq!(files, names);
    for (name, job) in examples() {
        assert!(read(folder().join(name).with_extension("job")).unwrap() == job, "{name}");
    }
}

#[test]
fn the_reports_are_those_of_the_program_the_entry_and_the_reference() {
    for (name, job) in examples() {
        let file = folder().join(name);
        let report = read_to_string(file.with_extension("report")).unwrap();
        let input = File::open(file.with_extension("job")).unwrap();
        assert_eq!(printed(command().stdin(input).spawn().unwrap()), report, "{name}");
        assert_eq!(reference::answer_text(&job), report, "{name}");
        let mut out = [0; 128];
        match entry::report(&job, &mut out) {
            length @ 1.. => assert_eq!(&out[..length as usize], report.as_bytes(), "{name}"),
            refused => assert!(report.starts_with(&format!("refused={}\n", -refused)), "{name}"),
        }
    }
}
