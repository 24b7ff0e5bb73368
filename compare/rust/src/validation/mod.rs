// SHIM, but for the last line: that takes in the parts of carried/validation/mod.rs which build.rs names.
pub(crate) mod argument;
pub(crate) mod diagnostics;
pub(crate) mod directive;
pub(crate) mod enum_;
pub(crate) mod field;
pub(crate) mod input_object;
pub(crate) mod interface;
pub(crate) mod object;
pub(crate) mod scalar;
pub(crate) mod schema;
pub(crate) mod selection;
pub(crate) mod union_;
pub(crate) mod value;
pub(crate) mod variable;

use crate::collections::HashMap;
use crate::collections::HashSet;
use crate::collections::IndexSet;
use crate::executable::BuildError as ExecutableBuildError;
use crate::executable::VariableDefinition;
use crate::parser::SourceMap;
use crate::parser::SourceSpan;
use crate::schema::BuildError as SchemaBuildError;
use crate::schema::Implementers;
use crate::Name;
use crate::Node;
use crate::Schema;
use std::fmt;
use std::sync::Arc;
use std::sync::OnceLock;

// what thiserror makes of `#[from]`
impl<T> From<RecursionLimitError> for CycleError<T> {
    fn from(e: RecursionLimitError) -> Self {
        CycleError::Limit(e)
    }
}
// the driver's eyes
impl DiagnosticList {
    pub(crate) fn oracle_items(
        &self,
    ) -> impl Iterator<Item = (Option<SourceSpan>, &diagnostics::DiagnosticData)> {
        self.diagnostics_data.iter().map(|d| match &d.details {
            Details::CompilerDiagnostic(data) => (d.location, data),
            _ => unreachable!(),
        })
    }
}
impl fmt::Debug for DiagnosticList {
    fn fmt(&self, _: &mut fmt::Formatter<'_>) -> fmt::Result {
        unreachable!()
    }
}
impl fmt::Display for DiagnosticList {
    fn fmt(&self, _: &mut fmt::Formatter<'_>) -> fmt::Result {
        unreachable!()
    }
}

include!(concat!(env!("OUT_DIR"), "/validation_parts.rs"));
