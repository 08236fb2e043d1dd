//! The built command, and what builds it, from outside. A test's name is what it
//! checks; what the command should write stands in tests/data/.

mod calls;
mod captures;
mod example;
mod files;
mod health;
mod kinds;
mod pages;
mod proofs;
mod records;
mod room;
mod rows;
mod show;
mod streams;
mod strict;
mod terminal;
