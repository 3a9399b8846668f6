//! A second engine for the chassis, written from the rule paper alone, and the
//! tools that compare another program with it: journals picked by a seed, a
//! readable form of a journal and the way back from it, what each record of a
//! journal changes, counts of what journals reach, stored journals, and states
//! that no journal reaches.

#![forbid(unsafe_code)]

mod amounts;
pub mod arguments;
mod by_hand;
pub mod cases;
pub mod changes;
pub mod characters;
pub mod chassis;
pub mod choose;
pub mod compare;
pub mod counts;
pub mod damage;
pub mod edition;
pub mod ended;
pub mod engine;
pub mod events;
pub mod explain;
pub mod fields;
pub mod files;
pub mod formed;
pub mod generate;
pub mod handed;
pub mod hints;
pub mod journal;
pub mod layout;
pub mod looks;
pub mod make;
pub mod marked;
pub mod mistakes;
pub mod names;
pub mod order;
pub mod owned;
pub mod picked;
pub mod picture;
pub mod program;
pub mod queue;
pub mod random;
pub mod reasons;
pub mod refusal;
pub mod replay;
pub mod run;
pub mod script;
pub mod show;
pub mod states;
pub mod stored;
pub mod stores;
pub mod table;
pub mod text;
pub mod told;
pub mod usage;
pub mod words;

#[cfg(test)]
mod tests;
