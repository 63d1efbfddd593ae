// The command, and the test host: sheets, the reference of the call, a model of the rules, a
// generator of sheets, the stored list, and the linked library against the reference.
pub mod bench;
pub mod cli;
pub mod command;
pub mod deep;
pub mod deepest;
pub mod definitions;
pub mod documents;
pub mod edits;
pub mod examples;
pub mod generate;
pub mod hand;
pub mod hostile;
pub mod kinds;
pub mod lent;
pub mod linked;
pub mod model;
pub mod notice;
pub mod page;
pub mod place;
pub mod reference;
pub mod rng;
pub mod sheet;
pub mod store;
pub mod tally;
