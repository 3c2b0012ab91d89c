//! The choice of a bearer for an uplink packet.

use crate::calls::NOT_WELL_FORMED;
use crate::element::filters_in;
use crate::filter::Header;
use crate::list::Entry;
use crate::table::Table;

pub const NOT_A_HEADER: u8 = 2;
pub const NOT_AN_ACTIVE_DEFAULT: u8 = 8;

#[derive(Clone, Copy, PartialEq, Eq, Debug)]
pub enum Route {
    Refused(u8),
    Bearer(u8),
    Discard,
}

/// A route, and what decides it.
#[derive(Clone, Copy, PartialEq, Eq, Debug)]
pub enum Why {
    Refused(u8),
    Filter { precedence: u8, entry: Entry },
    Default(u8),
    Discard,
}

pub fn route(table: &Table, default: u8, header: &Header) -> Route {
    match why(table, default, header) {
        Why::Refused(number) => Route::Refused(number),
        Why::Filter { entry, .. } => Route::Bearer(entry.bearer),
        Why::Default(bearer) => Route::Bearer(bearer),
        Why::Discard => Route::Discard,
    }
}

/// "Route: 1, 8, 2."
pub fn why(table: &Table, default: u8, header: &Header) -> Why {
    if !table.is_well_formed() {
        return Why::Refused(NOT_WELL_FORMED);
    }
    if !table.is_active_default(default) {
        return Why::Refused(NOT_AN_ACTIVE_DEFAULT);
    }
    if !header.is_valid() {
        return Why::Refused(NOT_A_HEADER);
    }
    match first_that_fits(table, default, header) {
        Some((precedence, entry)) => Why::Filter { precedence, entry },
        None if has_uplink_filter(table, default) => Why::Discard,
        None => Why::Default(default),
    }
}

fn has_uplink_filter(table: &Table, default: u8) -> bool {
    table.bearer(default).is_some_and(|bearer| filters_in(&bearer.row).any(|(_, filter)| filter.is_uplink()))
}

/// "positions 0 to 255 are tried upward and left at the first that fits"
pub fn first_that_fits(table: &Table, default: u8, header: &Header) -> Option<(u8, Entry)> {
    let fits = |entry: &Entry| table.filter(entry).is_some_and(|filter| filter.fits(header));
    table.list(default)?.entries().find(|(_, entry)| fits(entry))
}
