//! Every test, as one program: it is built once.

mod common;

mod bench_cases;
mod bench_examples;
mod book_cases;
mod checks_in_order;
mod examples;
mod generator;
mod instructions;
mod isolation;
mod make;
mod round_trips;
mod rulings;
mod word_lines;
mod words;
