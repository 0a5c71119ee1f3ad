//! What is written in C, compiled and run on this machine against the proved book.

mod entry;
mod example;
mod folder;
mod trial;
