//! The reference against the rules: their examples word for word, every refusal, the faults they name, random runs.

mod bench_examples;
mod counts;
mod damaged;
mod faults;
mod leaf_bases;
mod list_and_file;
mod many_lookups;
mod messages;
mod prefixes;
mod random_lists;
mod random_segments;
mod refusals_of_counts;
mod refusals_of_image;
mod refusals_of_list_and_file;
mod refusals_of_messages;
mod refusals_of_segments;
mod refusals_of_table;
mod runs_program;
mod segments;
mod spare_bits;
mod support;
mod table_histories;
