//! Benchmark: the proved monitor beside the second implementation, on the same loads in one run.
//!
//! `cargo run --release -p bench` from host/; with a word behind it, as `-- release`, only the loads whose
//! names have it, with `-- images` only the images, with `-- orders` only the orders of gets, and with `-- journal` only the journal.
//! All are timed in turns, each load several times; what is printed are
//! medians and their ratio, above 1 where the proved monitor is ahead. Before each timing the reply buffer is cleared,
//! for all alike, outside the time taken.

mod companies;
mod images;
mod journal;
mod loads;
mod orders;
mod requests;
mod timing;
mod trees;

fn main() {
    match std::env::args().nth(1).as_deref() {
        Some("images") => images::images(),
        Some("orders") => orders::orders(),
        Some("journal") => journal::journal(),
        Some(wanted) => requests::requests(wanted),
        None => {
            requests::requests("");
            println!();
            images::images();
            println!();
            orders::orders();
            println!();
            journal::journal();
        }
    }
}
