// SHIM (no parser, no rowan), but for the last line: that takes in the parts of carried/parser.rs which build.rs names.
use crate::collections::IndexMap;
use crate::schema::SchemaBuilder;
use crate::validation::WithErrors;
use crate::Schema;
use std::num::NonZeroU64;
use std::path::Path;
use std::sync::atomic;
use std::sync::atomic::AtomicU64;
use std::sync::Arc;

/// rowan::TextRange, reduced
#[derive(Clone, Copy, Hash, PartialEq, Eq, Debug)]
pub struct TextRange {
    start: TextSize,
    end: TextSize,
}
#[derive(Clone, Copy, Hash, PartialEq, Eq, Debug)]
pub struct TextSize(u32);
impl From<TextSize> for usize {
    fn from(t: TextSize) -> usize {
        t.0 as usize
    }
}
impl TextRange {
    pub fn new(start: TextSize, end: TextSize) -> Self {
        Self { start, end }
    }
    pub fn start(self) -> TextSize {
        self.start
    }
    pub fn end(self) -> TextSize {
        self.end
    }
    pub fn len(self) -> TextSize {
        TextSize(self.end.0 - self.start.0)
    }
}
pub struct SyntaxNode(TextRange);
impl SyntaxNode {
    fn text_range(&self) -> TextRange {
        self.0
    }
}
#[derive(Debug)]
pub struct SourceFile;
#[derive(Default)]
pub struct Parser;
impl Parser {
    pub fn parse_schema(
        self,
        _: impl Into<String>,
        _: impl AsRef<Path>,
    ) -> Result<Schema, WithErrors<Schema>> {
        unreachable!()
    }
    pub fn parse_into_schema_builder(
        self,
        _: impl Into<String>,
        _: impl AsRef<Path>,
        _: &mut SchemaBuilder,
    ) {
        unreachable!()
    }
}
/// A made-up location. It starts at `place`, which rises as the parts of a schema would be written, and ends at a number
/// that says what stands there: `tag` the sort of thing, `row` its section row.
pub fn span(built_in: bool, place: u32, tag: u8, row: usize) -> SourceSpan {
    assert!(row < 1 << 24 && place < 1 << 24);
    let end = TextSize((tag as u32) << 24 | row as u32);
    let file_id = if built_in { FileId::BUILT_IN } else { FileId::const_new(3) };
    SourceSpan::new(file_id, &SyntaxNode(TextRange::new(TextSize(place), end)))
}
pub fn built_in_span() -> SourceSpan {
    span(true, 0, 0, 0)
}
pub fn unspan(s: SourceSpan) -> (u8, usize) {
    ((s.end_offset() >> 24) as u8, s.end_offset() & 0xff_ffff)
}

include!(concat!(env!("OUT_DIR"), "/parser_parts.rs"));
