//! The second implementation: the paper's definitions in plain steps.

pub mod before;
pub mod board;
pub mod calls;
pub mod close;
pub mod day;
pub mod field;
pub mod fresh;
pub mod machine;
pub mod printer;
pub mod sheet;
pub mod swap;
pub mod table;
pub mod value;
