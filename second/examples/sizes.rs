//! Prints how many octets a filter, a row, a bearer, a list and a table take in the second program.

use std::mem::size_of;

use second::filter::{Filter, Row};
use second::list::List;
use second::table::{Bearer, Table};

fn main() {
    println!(
        "filter {}, row {}, bearer {}, list {}, table {}",
        size_of::<Filter>(),
        size_of::<Row>(),
        size_of::<Bearer>(),
        size_of::<List>(),
        size_of::<Table>()
    );
}
