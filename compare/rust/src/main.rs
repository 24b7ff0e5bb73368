//! The Rust's own text on schema tables. The module tree is apollo-compiler's (lib.rs), reduced; ../../README.md says
//! which files are carried and which are shims. The program itself is in oracle/.
#![allow(dead_code, unused_imports, unused_macros, unreachable_pub, clippy::all)]
#[macro_use]
mod macros;
pub mod ast;
pub mod collections;
pub mod coordinate;
pub mod diagnostic;
pub mod executable;
mod name;
mod node;
mod oracle;
pub mod parser;
pub mod schema;
pub mod validation;

pub use self::executable::ExecutableDocument;
pub use self::name::InvalidNameError;
pub use self::name::Name;
pub use self::node::Node;
pub use self::schema::Schema;

// what thiserror makes of `#[from]` in coordinate.rs
impl From<InvalidNameError> for coordinate::SchemaCoordinateParseError {
    fn from(e: InvalidNameError) -> Self {
        Self::InvalidName(e)
    }
}

fn main() {
    oracle::run();
}
