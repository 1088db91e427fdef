//! Reads, audits and writes Fluent/TGrid text meshes. The reader, the audit and the writer are proved; this crate lends them memory, gives their answers types and finds places for people.
//!
//! ```
//! let text = b"(2 2)(10 (0 1 3 0 2))(12 (0 1 1 0))(13 (0 1 3 0))
//! (10 (1 1 3 1 2)(0 0 1 0 0 1))(12 (2 1 1 1 1))
//! (13 (3 1 3 3 2)(1 2 0 1 2 3 0 1 3 4 0 2))";
//! let mesh = ravneket::Mesh::read(text)?;
//! for fault in mesh.audit().faults {
//!     println!("{}; mend: {}", fault.explain(&mesh), fault.advice());
//! }
//! # assert_eq!(mesh.audit().total, 3);
//!
//! let mut mended = mesh.clone();
//! mended.set_face_node(3, 1, 1)?;
//! mended.set_side(3, ravneket::Side::Left, 1)?;
//! assert_eq!(mended.audit().total, 0);
//! let text = mended.to_text()?;
//! assert_eq!(ravneket::Mesh::read(&text)?, mended);
//! # Ok::<(), Box<dyn std::error::Error>>(())
//! ```

#![warn(missing_docs)]

mod audit;
mod blame;
mod decimal;
mod edit;
mod explain;
mod fault;
mod grammar;
mod length;
pub mod locate;
mod mesh;
pub mod names;
mod place;
pub mod raw;
mod record;
mod refusal;
mod rowblame;
mod snippet;
pub mod token;
mod walk;
mod why;
mod write;

pub use audit::{audit_tables, Audit, Tables};
pub use blame::{Blame, Culprit};
pub use decimal::{Decimal, NoDecimal};
pub use edit::NotThere;
pub use fault::{Fault, Side};
pub use mesh::{Cell, Dimension, Face, Mesh, Node, Zone};
pub use mesh::{CELL_WORDS, FACE_WORDS, MAX_BYTES, MAX_ROWS, MAX_ZONES, NODE_WORDS, ZONE_WORDS};
pub use place::{Lines, Place};
pub use refusal::{Refusal, RefusalKind};
pub use snippet::{visible, Snippet};
pub use write::{write_tables, MeshTables, Unwritten};
