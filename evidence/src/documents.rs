//! Documents to try: grown from the grammar, changed, small, deep, long and bordering.

pub mod borders;
pub mod deep;
pub mod grow;
pub mod hostile;
pub mod keys;
pub mod large;
pub mod mutate;
pub mod pieces;
pub mod rng;
pub mod shapes;
pub mod shrink;
pub mod small;

pub use grow::{grow, grow_wide, Grown};
pub use rng::Rng;
