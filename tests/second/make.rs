//! Deterministic generators for comparison: the same seed gives the same bytes.

pub mod accepted;
pub mod damage;
pub mod encode;
pub mod long;
pub mod prove;
pub mod random;
pub mod resolution;
pub mod rng;

pub use accepted::{accepted, certificate_for, invariant_for};
pub use damage::{damaged, soup, truncations};
pub use long::{benchmark, lengthened, too_wide, widths, Width};
pub use prove::{certificate, prove, refute, Step};
pub use random::{
    confirmed_trace, invariant, medium_sheet, sheet, sheet_at, small_sheet, trace, Limit, Shape,
};
pub use rng::Rng;
