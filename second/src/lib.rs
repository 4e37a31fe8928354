//! The house store a second time: sites, a merger and copies at the level of
//! words, written from the rules alone, to compare the proved store with.

pub mod aim;
pub mod answer;
pub mod book;
pub mod bookmarks;
pub mod copy;
pub mod desk;
pub mod fuzz;
pub mod house;
pub mod merger;
pub mod message;
pub mod picture;
pub mod probe;
pub mod random;
pub mod reader;
pub mod record;
pub mod room;
pub mod script;
pub mod scripts;
pub mod site;
pub mod sizes;
pub mod table;
pub mod tally;
pub mod trace;
pub mod value;
pub mod world;
