//! A second reading of document 01, and the means to compare it with the library.
//!
//! `call` has the list of the calls, `given` their arguments, and `shape` the fields of what goes into them and comes back.
//! The model goes in one line, from the row up: `row`, `code`, `wear`, `locks`, `tallies`, `keys`, `permission`,
//! `model`, `access`, `latches`, `form`, `jobs`, `early`, `lead`, `make`, `reader`, `mending`, `repair`, `card_sizes`, `card`, `card_job`, `calls`.
//! Each uses only those before it, and what has no rule in it; `tests/line.rs` sees to it.
//! The library is in `face`, behind the child process of `driver`.
//! `plain` is for timings alone, and is not there when the comparison is built.
//! Everything else draws calls, makes them on both sides and compares what comes back. `cuts` says what is promised of a job that is cut and
//! run again, and `ends` counts how such runs end. `sent` says what is promised of a job that comes over the lead in chunks, and `words` counts
//! what was said of such jobs before their end. `made` and `made_jobs` say what is promised of a job that is made of two images, and `walked` of
//! one that is read entry by entry; `pair_kinds` and `tried` count what came up. `passed` and `passed_again` say what is promised of a repair
//! pass, and `pass_kinds` counts what came up of those. `card_read` says what is promised of a card that is read, and `card_written` of one that is
//! written, and `card_kinds` counts what came up of both. `agreement` says when two chips look the same to a
//! Non-secure plug-in; `unlike`, `pairs`, `two_chips`, `plugins`, `written_pair` and `sharpness` hold the library to that.

pub mod call;
pub mod given;
pub mod part;
pub mod shape;

pub mod access;
pub mod calls;
pub mod card;
pub mod card_job;
pub mod card_sizes;
pub mod code;
pub mod early;
pub mod fault;
pub mod form;
pub mod jobs;
pub mod keys;
pub mod ladder;
pub mod latches;
pub mod lead;
pub mod locks;
pub mod make;
pub mod mending;
pub mod model;
pub mod permission;
pub mod reader;
pub mod repair;
pub mod row;
pub mod tallies;
pub mod wear;

#[cfg(any(feature = "timings", feature = "self-test"))]
pub mod plain;

#[cfg(not(feature = "self-test"))]
pub mod driver;
#[cfg(not(feature = "self-test"))]
pub mod face;
#[cfg(feature = "self-test")]
#[path = "selftest.rs"]
pub mod face;

pub mod agreement;
pub mod arguments;
pub mod bench;
pub mod callers;
pub mod card_kinds;
pub mod card_read;
pub mod card_written;
pub mod cards;
pub mod counts;
pub mod cuts;
pub mod cuttings;
pub mod ends;
pub mod every;
pub mod every_card;
pub mod every_card_job;
pub mod every_cutting;
pub mod every_ground;
pub mod every_list;
pub mod every_lock_cut;
pub mod every_note;
pub mod every_page;
pub mod every_pair;
pub mod every_place;
pub mod every_tally;
pub mod every_version;
pub mod every_worn_row;
pub mod images;
pub mod jobfiles;
pub mod leads;
pub mod lock_bytes;
pub mod lock_rows;
pub mod made;
pub mod made_jobs;
pub mod makings;
pub mod pair_kinds;
pub mod pairs;
pub mod pass_kinds;
pub mod passed;
pub mod passed_again;
pub mod plugins;
pub mod random;
pub mod readings;
pub mod recount;
pub mod repairs;
pub mod run;
pub mod sent;
pub mod sequences;
pub mod sharpness;
pub mod spoilt;
pub mod states;
pub mod tried;
pub mod two_chips;
pub mod unlike;
pub mod walked;
pub mod words;
pub mod written_pair;
