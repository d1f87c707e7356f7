//! The product held against the second program, call by call, and against the history, run by run.
//!
//! A [`judge::Judge`] makes a call on both programs, on copies of the same words between guards, and compares the
//! number, the count and every word of every buffer. What is lent comes from [`run`] (runs of 2 to 16 devices, narrow
//! and wide) and [`lents`] (made-up sound tables, damaged ones, garbage, limits). What fails is made small by
//! [`shrink`] and told by [`show`]. For measuring, [`obvious`] is an unproved program of check and pass, and [`loaded`]
//! another archive of the library.

pub mod call;
pub mod damage;
pub mod desk;
pub mod judge;
pub mod lents;
pub mod loaded;
pub mod obvious;
pub mod program;
pub mod record;
pub mod run;
pub mod show;
pub mod shrink;
pub mod sound;
