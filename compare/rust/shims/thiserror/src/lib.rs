//! No-op `#[derive(thiserror::Error)]`: only lets the carried text compile.
//! Message texts (`Display`) are not generated; the single `#[from]` that matters
//! (`CycleError::Limit`) is written by hand in src/validation/mod.rs.
use proc_macro::TokenStream;
#[proc_macro_derive(Error, attributes(error, from, source))]
pub fn error(_: TokenStream) -> TokenStream {
    TokenStream::new()
}
