//! Document 000 as it is (`plain`), document 000 with the scope's patches (`patched`), and cases for comparing with them.

pub mod block;
pub mod blocks;
pub mod cases;
pub mod findings;
pub mod hypot;
pub mod lanczos;
pub mod lanczos_cases;
pub mod ndarray;
pub mod pairs;
pub mod patched;
pub mod plain;
pub mod special;
pub mod steps;
