//! Reads a file of tables on standard input and writes what the Rust says of each.
//!
//! Options: `--sorted` gives the diagnostics in the order of `Schema::validate`, which sorts them by file and offset;
//! `--no-directives` leaves the four built-in directives undefined; `--extended-field ROW` takes that field of a built-in
//! type as written in an extension by the user.
mod make;
mod record;
mod table;

use crate::schema::validation::validate_schema;
use crate::validation::diagnostics::DiagnosticData as D;
use crate::validation::DiagnosticList;
use crate::Node;
use std::fmt::Write as _;
use std::io::Write as _;
use table::Table;

// What stands at a made-up location; the row is one of the section named.
const ROOT: u8 = 1; // operation
const TYPE_NAME: u8 = 2; // types
const TYPE: u8 = 3; // types
const EDGE: u8 = 4; // edges
const FIELD_NAME: u8 = 5; // fields
const FIELD: u8 = 6; // fields
const FIELD_TYPE: u8 = 7; // fields
const ARG_NAME: u8 = 8; // arguments
const ARG: u8 = 9; // arguments
const ARG_TYPE: u8 = 10; // arguments
const MEMBER: u8 = 11; // members
const VALUE_NAME: u8 = 12; // values
const VALUE: u8 = 13; // values

struct Options {
    sorted: bool,
    directives: bool,
    extended_field: Option<usize>,
}

fn options() -> Options {
    let mut o = Options { sorted: false, directives: true, extended_field: None };
    let mut args = std::env::args().skip(1);
    while let Some(a) = args.next() {
        match a.as_str() {
            "--sorted" => o.sorted = true,
            "--no-directives" => o.directives = false,
            "--extended-field" => o.extended_field = Some(args.next().unwrap().parse().unwrap()),
            _ => panic!("unknown option {a}"),
        }
    }
    o
}

/// What `Schema::validate` pushes; sorted, if asked, by its own way of ending.
fn diagnostics(o: &Options, t: &Table) -> DiagnosticList {
    let mut schema = make::schema(t, o.directives, o.extended_field);
    let mut errors = DiagnosticList::new(Default::default());
    validate_schema(&mut errors, &mut schema);
    if !o.sorted {
        return errors;
    }
    match errors.into_result() {
        Ok(()) => DiagnosticList::new(Default::default()),
        Err(sorted) => sorted,
    }
}

fn write_words(out: &mut String, words: impl Iterator<Item = Option<usize>>) {
    for w in words {
        match w {
            Some(w) => write!(out, " {w}").unwrap(),
            None => out.push_str(" -"),
        }
    }
    out.push('\n');
}

fn answer(number: usize, o: &Options, t: &Table) -> String {
    let mut out = format!("S {number}\n");
    for (loc, d) in diagnostics(o, t).oracle_items() {
        match (record::record(t, loc, d), d) {
            (Some(words), _) => {
                out.push('r');
                write_words(&mut out, words.into_iter());
                if let D::RecursiveInputObjectDefinition { trace, .. } = d {
                    write!(out, "t {}", record::row(loc, TYPE)).unwrap();
                    write_words(&mut out, trace.iter().map(|f| Some(record::row(f.location(), FIELD))));
                }
            }
            (None, D::DeeplyNestedType { describe_type: "input object", .. }) => {
                writeln!(out, "D {}", record::row(loc, TYPE)).unwrap()
            }
            (None, other) => writeln!(out, "X {}", format!("{other:?}").replace('\n', " ")).unwrap(),
        }
    }
    out.push_str("E\n");
    out
}

pub fn run() {
    let o = options();
    let mut input = std::io::BufReader::new(std::io::stdin());
    let mut out = std::io::BufWriter::new(std::io::stdout());
    let mut number = 0;
    while let Some(t) = table::read(&mut input) {
        out.write_all(answer(number, &o, &t).as_bytes()).unwrap();
        number += 1;
    }
    out.flush().unwrap();
}
