//! Tests that hold for no file alone, and the random programs of others.

mod fair_orders;
pub mod random;
