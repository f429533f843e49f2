//! One test or more for each ruling, that would fail under its other reading.

#[path = "rulings/a01_to_a09.rs"]
mod a01_to_a09;
#[path = "rulings/a10_to_a18.rs"]
mod a10_to_a18;
#[path = "rulings/a19_to_a26.rs"]
mod a19_to_a26;
#[path = "rulings/books.rs"]
mod books;
#[path = "rulings/reaches.rs"]
mod reaches;
#[path = "rulings/refusals.rs"]
mod refusals;
