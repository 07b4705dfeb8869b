//! Sheets for tests: sound ones, damaged ones, and ones at the limits.

pub mod bills;
pub mod chosen;
pub mod covers;
pub mod damage;
pub mod drivers;
pub mod functions;
pub mod heavy;
pub mod limits;
pub mod linked;
pub mod longest;
pub mod parts;
pub mod problem;
pub mod sound;
pub mod specimen;
