//! The rules of docs/RULES.md and their readings as cases, and short runs of the generator's checks.

mod captures;
mod coding;
mod common;
mod examples;
mod gate;
mod indefinite;
mod kept;
mod lines;
mod lookups;
mod names;
mod places;
mod probe;
mod readings;
mod replays;
mod resting;
mod rules;
mod tables;
