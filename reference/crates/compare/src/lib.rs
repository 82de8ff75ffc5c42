//! What the comparison and the benchmark share: the generator of scenes, a case as the port takes it, and the stages compared.
pub mod calls;
pub mod cases;
pub mod cost;
pub mod differences;
pub mod front;
pub mod lists;
pub mod numbers;
pub mod packets;
pub mod paths;
pub mod planes;
pub mod random;
pub mod ranking;
pub mod record;
pub mod scenes;
pub mod taps;
pub mod tree;
pub mod walls;
