//! Two files of the crate are needed in part only: the rest of them needs the parser. They are carried whole under
//! carried/, and the line ranges named here are copied, byte for byte, to files that src/validation/mod.rs and
//! src/parser.rs include.
use std::path::Path;

/// First and last line of each part, counted from 1.
const VALIDATION: &[(usize, usize)] = &[
    (47, 217),    // Valid, the contexts, WithErrors
    (234, 264),   // DiagnosticList, DiagnosticData, Details
    (1064, 1079), // impl DiagnosticList: new, is_empty, len
    (1089, 1094), //   push; iter is left out
    (1108, 1141), //   sort, into_result and its like; merge is left out
    (1163, 1336), // From for Details; DepthCounter, RecursionStack, RecursionGuard, CycleError
];
const PARSER: &[(usize, usize)] = &[
    (56, 79),   // SourceMap, FileId, TaggedFileId, SourceSpan
    (484, 620), // their impls; SourceSpan up to recompose
    (634, 646), // the end of impl SourceSpan, its Debug
];

fn cut(from: &str, ranges: &[(usize, usize)], to: &str) {
    println!("cargo:rerun-if-changed={from}");
    let text = std::fs::read_to_string(from).unwrap();
    let lines: Vec<&str> = text.split_inclusive('\n').collect();
    let parts: String = ranges.iter().map(|&(first, last)| lines[first - 1..last].concat()).collect();
    let out = std::env::var("OUT_DIR").unwrap();
    std::fs::write(Path::new(&out).join(to), parts).unwrap();
}

fn main() {
    println!("cargo:rerun-if-changed=build.rs");
    cut("carried/validation/mod.rs", VALIDATION, "validation_parts.rs");
    cut("carried/parser.rs", PARSER, "parser_parts.rs");
}
