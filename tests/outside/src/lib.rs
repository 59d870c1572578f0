//! A solver for document 01, with orders 1 to 7 of document 02, that shares no code with the library it is
//! held against, reads by rewriting lines, and finds shares, cuts, waiting sets, servings and exact
//! divisions by other methods, looks at growth layouts one by one, and judges other people's divisions by
//! lists of their pieces.
//! Yards (agents) and pieces (items) are counted from 0 inside, and from 1 in texts.

pub mod allowance;
pub mod cuts;
pub mod damage;
pub mod division;
pub mod divisions;
pub mod exact;
pub mod expected;
pub mod families;
pub mod generator;
pub mod grades;
pub mod growth;
pub mod harness;
pub mod judging;
pub mod kinds;
pub mod limits;
pub mod met;
pub mod parts;
pub mod piles;
pub mod printer;
pub mod progress;
pub mod promise;
pub mod ratio;
pub mod reader;
pub mod run;
pub mod samples;
pub mod serving;
pub mod sets;
pub mod share;
pub mod spelling;
pub mod stated;
pub mod strict;
pub mod tables;
pub mod ties;
pub mod typed;
pub mod verdict;
pub mod widths;
pub mod writer;
