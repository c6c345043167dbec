//! A second program for the sinter furnace planner.
//!
//! It is written from the papers alone, so that the planner's answers can be compared with it:
//! document 01 ("Sinter furnace planner: tape, plan, gap") and requests 1 to 9 of document 02
//! ("Requests for later changes"), a reference for each step, models in floats, given marks,
//! columns of weight 0, firing records, the place where a plan fails, rivals between whole units,
//! how near a good duty must be and the banded step. It puts plainness before speed: the sums are written as the
//! papers write them, all whole numbers have 128 bits, and the ends of a range are found by trying
//! numbers one by one.
//!
//! The modules follow document 01's sections: [`model`], [`tape`], [`floor`], [`rounds`],
//! [`calls`], [`refusal`] and [`mod@slip`]; [`import`] is request 2, [`marks`] request 3, request
//! 4's rule is [`floor::end_by_slope`], [`mod@record`] is request 5, [`mod@faults`] and [`report`]
//! are request 6, [`rival`] is request 7, of which [`quotient`] says what it changes, and [`mod@range`]
//! is request 8. [`banded`] is request 9. [`float`] takes the bits of floats apart, [`plan_file`] reads a plan from a text, [`cases`] answers a text of test cases,
//! [`generate`] makes tapes, plans, multipliers, entries, models and duties from a seed, and [`count`]
//! counts what they lead to, by rounds, sizes and [`shapes`].
#![forbid(unsafe_code)]
#![deny(missing_docs)]
// The loops name the paper's indexes k, i and j.
#![allow(clippy::needless_range_loop)]

pub mod banded;
pub mod calls;
pub mod cases;
pub mod count;
pub mod faults;
pub mod float;
pub mod floor;
pub mod generate;
pub mod import;
pub mod marks;
pub mod model;
pub mod plan_file;
pub mod quotient;
pub mod range;
pub mod record;
pub mod refusal;
pub mod report;
pub mod rival;
pub mod rounds;
pub mod shapes;
pub mod slip;
pub mod tape;

pub use calls::{
    banded_correction, judge_multipliers, judge_plan, read, read_step, solve, solve_traced, Shown,
    Solved,
};
pub use import::{import_entry, import_model, Entry};
pub use model::{Furnace, Whole};
pub use range::{ranges, Range};
pub use record::{record, Record};
pub use refusal::{Fault, Refusal};
pub use report::{judge_report, Report};
pub use slip::slip;
