//! The wall book a second time: document 01, and what has landed of document 02, in Rust, written for clarity,
//! to run beside the proved one.
//!
//! From bytes upwards: [`wire`], [`page`], [`node`], [`tree`]; [`mount`] reads a closed pool, [`flash`]
//! is the store while a batch runs, [`desk`] makes a batch of queues, [`book`] has the three entry points.
//! [`books`] has the books by name, and [`both`] makes a call on both. [`reference`] is the model that charges
//! are compared with, [`optimum`] the cheapest schedule. [`tool`] is the program for a person, over any book.

pub mod account;
pub mod audit;
pub mod bench;
pub mod book;
pub mod books;
pub mod both;
pub mod calendar;
pub mod chart;
pub mod command;
pub mod damage;
pub mod desk;
pub mod flash;
pub mod foreign;
pub mod fuzz;
pub mod input;
pub mod layout;
pub mod markdown;
pub mod marks;
pub mod meter;
pub mod metered;
pub mod mount;
pub mod node;
pub mod observe;
pub mod optimum;
pub mod output;
pub mod page;
pub mod program;
#[cfg(proved_book)]
pub mod proved;
pub mod random;
pub mod reference;
pub mod refusal;
pub mod repair;
pub mod report;
pub mod score_order;
pub mod shell;
pub mod sound;
pub mod spell;
pub mod stack;
pub mod svg;
pub mod tool;
pub mod tree;
pub mod wire;
pub mod workload;
