//! The fare tree of document 01: the second program.
//!
//! Read in this order: `table` (a record, well formed), `task` (what a task
//! is about to do), `step` (walk and readings), `commit` (put-in and
//! take-out), `settle`, `calls` and `reach` (the other calls), `callfile`
//! (the program). `make` and `count` are for random call files, `calltext`,
//! `words` and `picture` show call files and what they do, `ride` is for
//! rides that are compared with what they must give. `probe` makes single
//! calls on any table and state, `statecode` writes a state as numbers, and
//! `damage` makes random damaged probes. `shadow` compares the calls that
//! another program made.

pub mod allowed;
pub mod answer;
pub mod callfile;
pub mod calls;
pub mod calltext;
pub mod commit;
pub mod count;
pub mod damage;
pub mod line;
pub mod make;
pub mod picture;
pub mod probe;
pub mod random;
pub mod reach;
pub mod ride;
pub mod settle;
pub mod shadow;
pub mod statecode;
pub mod step;
pub mod table;
pub mod task;
pub mod words;
