//! Runs of the model on the examples of document 01 and the inputs of the readings.

mod carrying;
mod examples;
mod helpers;
mod protocol_lines;
mod readings_grammar;
mod readings_places;
mod readings_schema;
mod readings_table;
mod readings_tokens;
mod schemas;
