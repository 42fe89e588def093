//! Case lines and answer lines: what goes into a reading and what comes out, as values and as text. ../README.md has the format.
mod answer;
mod case;
mod text;

pub use answer::{same_f32, same_f64, BUFFERS, ITEMS, MOMENTS, NAMES, UNITS};
pub use answer::{Answer, Date, Each, Fields, Geometry, Item, Packet, Picture, Product, Refusal, Scale, Sweep};
pub use case::{Case, FieldKind, Lent, Scheme, EACH};
pub use text::{hex, unhex};
