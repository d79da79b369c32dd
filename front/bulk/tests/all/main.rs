//! The tests of the command, in one program: as one for each file they would all compile and link what they share.

mod common;

mod book;
mod call;
mod check;
mod day;
mod day_clearer;
mod day_cut_off;
mod day_damaged;
mod day_power;
mod day_random;
mod day_shared;
mod doubled;
mod explain;
mod items;
mod json;
mod judge;
mod language;
mod plain;
mod play;
mod records;
mod same;
mod script;
mod several;
mod typed;
mod versions;
