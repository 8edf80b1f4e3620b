//! Tests of the program `dolzhytik`: each command, each error and each text; and of `wasmrow`.
mod build;
mod build_id;
mod color;
mod compare;
mod completions;
mod dump;
mod dump_json;
mod dump_objects;
mod files;
mod hints;
mod keep_code;
mod linked;
mod man;
mod no_module;
mod outline;
mod program;
#[path = "../modules/samples.rs"]
mod samples;
mod schema;
mod shorten;
mod shortened;
mod size;
mod size_json;
mod strip;
#[path = "../support/tools.rs"]
mod tools;
mod unknown;
mod usage;
mod wasmrow;
mod why;
