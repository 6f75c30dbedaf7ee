//! include/pairing.h: compiles alone as C99 and as C++, has the sizes and numbers of the model, and fits the archive.

use std::fs::write;
use std::path::{Path, PathBuf};
use std::process::Command;

use model::answer::{answer_of, Refusal};
use model::sizes::*;

const WARNINGS: [&str; 4] = ["-Wall", "-Wextra", "-Werror", "-pedantic"];

fn root() -> PathBuf {
    Path::new(env!("CARGO_MANIFEST_DIR")).join("../..")
}

/// Compiles a source, with every warning an error, into a file of that name in the tests' own directory.
fn compile(compiler: &str, standard: &str, arguments: &[&Path], name: &str) -> PathBuf {
    let made = Path::new(env!("CARGO_TARGET_TMPDIR")).join(name);
    let out = Command::new(compiler)
        .arg(standard)
        .args(WARNINGS)
        .arg("-I")
        .arg(root().join("include"))
        .args(arguments)
        .arg("-o")
        .arg(&made)
        .output()
        .expect("a compiler");
    let errors = String::from_utf8_lossy(&out.stderr);
    assert!(out.status.success(), "{compiler} {standard}: {errors}");
    made
}

/// The header's macros and what they have to be.
fn macros() -> Vec<(&'static str, i64)> {
    let refusals = [
        ("PAIRING_REFUSED_LENGTH", Refusal::Length),
        ("PAIRING_REFUSED_TABLE_A", Refusal::TableA { row: 0 }),
        ("PAIRING_REFUSED_TABLE_B", Refusal::TableB { row: 0 }),
        ("PAIRING_REFUSED_LIST", Refusal::ListStray { row: 0 }),
        (
            "PAIRING_REFUSED_UNFINISHED",
            Refusal::ListUnfinished { row: 0 },
        ),
        ("PAIRING_REFUSED_KIND", Refusal::Kind),
        ("PAIRING_REFUSED_MASTER", Refusal::Master),
        ("PAIRING_REFUSED_FIELD", Refusal::Field),
        ("PAIRING_REFUSED_NUMBER", Refusal::Presence),
        ("PAIRING_REFUSED_FULL", Refusal::Full),
    ];
    let mut macros = vec![
        ("PAIRING_NODE_BYTES", NODE_BYTES as i64),
        ("PAIRING_TABLE_ROWS", TABLE_ROWS as i64),
        ("PAIRING_TABLE_BYTES", TABLE_BYTES as i64),
        ("PAIRING_LINK_BYTES", LINK_BYTES as i64),
        ("PAIRING_LIST_ROWS", LIST_ROWS as i64),
        ("PAIRING_LIST_BYTES", LIST_BYTES as i64),
        ("PAIRING_EDIT_BYTES", EDIT_BYTES as i64),
        ("PAIRING_BANDS", BANDS as i64),
        ("PAIRING_COUNTS_BYTES", COUNTS_BYTES as i64),
        ("PAIRING_POSITION_MIN", POSITION_MIN),
        ("PAIRING_POSITION_MAX", POSITION_MAX),
        ("PAIRING_CAPACITY_MIN", CAPACITY_MIN as i64),
        ("PAIRING_CAPACITY_MAX", CAPACITY_MAX as i64),
        ("PAIRING_SORT_ON_CURVE", SORT_ON_CURVE as i64),
        ("PAIRING_SORT_OFF_CURVE", SORT_OFF_CURVE as i64),
        ("PAIRING_MASTER_A", MASTER_A as i64),
        ("PAIRING_MASTER_B", MASTER_B as i64),
        ("PAIRING_KIND_ARRIVAL", KIND_ARRIVAL as i64),
        ("PAIRING_KIND_DEPARTURE", KIND_DEPARTURE as i64),
        ("PAIRING_KIND_MOVE", KIND_MOVE as i64),
        ("PAIRING_KIND_CAPACITY", KIND_CAPACITY as i64),
        ("PAIRING_DONE", 0),
    ];
    macros.extend(refusals.map(|(name, refusal)| (name, i64::from(refusal.number()))));
    macros
}

#[test]
fn compiles_alone_with_the_sizes_of_the_model() {
    let mut source = "#include \"pairing.h\"\n".to_string();
    for (place, (name, value)) in macros().into_iter().enumerate() {
        source += &format!("typedef char check_{place}[{name} == {value} ? 1 : -1];\n");
    }
    let answer = answer_of(Refusal::ListStray { row: 0 }.number(), 1_022);
    source += &format!(
        "typedef char refusal[PAIRING_REFUSAL({answer}) == 4 ? 1 : -1];\n\
         typedef char value[PAIRING_VALUE({answer}) == 1022 ? 1 : -1];\n"
    );
    let place = Path::new(env!("CARGO_TARGET_TMPDIR"));
    for (compiler, standard, name) in [
        ("gcc", "-std=c99", "header_alone.c"),
        ("g++", "-std=c++11", "header_alone.cpp"),
    ] {
        let file = place.join(name);
        write(&file, &source).expect("a place for files");
        let only = Path::new("-c");
        compile(compiler, standard, &[only, &file], &format!("{name}.o"));
    }
}

#[test]
fn declares_what_the_archive_has() {
    let source = root().join("rust/differential/tests/header.c");
    let archive = root().join("target/staticlib/libpairing.a");
    for (compiler, standard) in [("gcc", "-std=c99"), ("g++", "-std=c++11")] {
        let language = Path::new(if compiler == "gcc" { "-xc" } else { "-xc++" });
        let none = Path::new("-xnone");
        let arguments = [language, &source, none, &archive];
        let program = compile(
            compiler,
            standard,
            &arguments,
            &format!("header_{compiler}"),
        );
        let status = Command::new(program).status().expect("the program");
        assert!(status.success(), "{compiler}: {status}");
    }
}
