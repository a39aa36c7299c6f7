//! The built program, from outside: every command, every status, bad bytes and files, pipes and devices.

mod closed;
mod common;
mod diff;
mod drawn;
mod examples;
mod explain;
mod export;
mod figures;
mod found;
mod games;
mod import;
mod judged;
mod keys;
mod logs;
mod made;
mod options;
mod pages;
mod pgn;
mod pgn_rolls;
mod pictures;
mod pipes;
mod report;
mod rolls;
mod settled;
mod stores;
