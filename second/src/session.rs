//! One table, one operation being composed, one state of portions, and the calls of the bench language on them.

use std::hint::black_box;

use crate::calls::{self, Answer, NOT_WELL_FORMED};
use crate::element::{self, Operation, Reading};
use crate::messages;
use crate::portions::Portions;
use crate::route;
use crate::script::{asked, Asked, Call, LARGEST_BUFFER};
use crate::status;
use crate::table::Table;
use crate::text::{self, Text};

#[derive(Default)]
pub struct Session {
    pub table: Table,
    pub composed: Option<Operation>,
    pub portions: Portions,
    pub echo: bool,
    reply: Text,
}

const WITHIN: &str = "the script takes 5 to 15";

/// What a buffer holds before the writer comes.
const BEFORE: u8 = 0xEE;

impl Session {
    /// Appends the line where echo is on, does what it asks for and appends the reply.
    pub fn line(&mut self, number: u64, line: &[u8], too_long: bool, out: &mut Text) {
        self.write_echo(line, too_long, out);
        self.do_line(number, line, too_long, out);
    }

    /// The LF is written also where the last line came without one, so that its reply is a line by itself.
    pub fn write_echo(&self, line: &[u8], too_long: bool, out: &mut Text) {
        if self.echo && !too_long {
            out.extend_from_slice(line);
            out.push(b'\n');
        }
    }

    /// Does what a line asks for and appends the reply alone.
    pub fn do_line(&mut self, number: u64, line: &[u8], too_long: bool, out: &mut Text) {
        let asked = if too_long { Asked::Bad } else { asked(line) };
        let done = match asked {
            Asked::Nothing => Some(()),
            Asked::Bad => None,
            Asked::Call { times, call } => self.repeat(times, &call, out),
        };
        if done.is_none() {
            text::line(out, "bad line ", number);
        }
    }

    /// Does the call as often as asked and keeps the last reply. Nothing where the call needs a `compose` before it.
    fn repeat(&mut self, times: u32, call: &Call, out: &mut Text) -> Option<()> {
        let mut reply = std::mem::take(&mut self.reply);
        let mut done = Some(());
        // Every one of the calls is really done, so that a repeat can be timed. The long reply to an element is made once.
        let unheard = if matches!(call, Call::Element { .. } | Call::Finish) { times - 1 } else { 0 };
        for _ in 0..unheard {
            black_box(&*self).read_unheard(black_box(call));
        }
        for _ in unheard..times {
            reply.clear();
            done = black_box(&mut *self).call(black_box(call), &mut reply);
        }
        out.extend_from_slice(&reply);
        self.reply = reply;
        done
    }

    fn call(&mut self, call: &Call, out: &mut Text) -> Option<()> {
        match call {
            Call::Check => check(&self.table, out),
            Call::Route { default, header } => text::route(out, &route::route(&self.table, *default, header)),
            Call::Why { default, header } => text::why(out, &route::why(&self.table, *default, header)),
            Call::Status { size } => written(*size, out, |buffer| status::write(&self.table, buffer)),
            Call::Synchronise { octets } => synchronise(&mut self.table, octets.slice(), out),
            Call::Compare { octets } => compare(&self.table, octets.slice(), out),
            Call::Element { value } => reading(&element::read(value.slice(&self.portions)), out),
            Call::Rewrite { value, size } => rewrite(value.slice(&self.portions), *size, out),
            Call::Announce { length } => announce(&mut self.portions, *length, out),
            Call::Portion { octets } => portion(&mut self.portions, octets.slice(), out),
            Call::Finish => finish(&self.portions, out),
            Call::ForceFed { state } => self.force_fed(state, out),
            Call::Parse { octets } => parse(octets.slice(), out),
            Call::Message { octets } => message(&mut self.table, octets.slice(), out),
            Call::Assemble { assembly } => {
                written(assembly.size, out, |buffer| messages::write(&assembly.message(), buffer))
            }
            Call::Compose { .. } | Call::Filter { .. } | Call::Identifier { .. } | Call::Emit { .. } => {
                return self.compose(call, out);
            }
            Call::Force { .. } | Call::Place { .. } | Call::ForceEntry { .. } => self.by_hand(call, out),
            Call::List { identity } => text::list(out, self.table.list(*identity).expect(WITHIN)),
            Call::Show => text::table(out, &self.table),
            Call::Echo { on } => self.switch_echo(*on, out),
            _ => text::answer(out, &self.answer(call)?),
        }
        Some(())
    }

    fn switch_echo(&mut self, on: bool, out: &mut Text) {
        self.echo = on;
        text::words(out, if on { "echo on\n" } else { "echo off\n" });
    }

    fn force_fed(&mut self, state: &Portions, out: &mut Text) {
        self.portions = *state;
        text::words(out, "forced-fed\n");
    }

    fn read_unheard(&self, call: &Call) {
        match call {
            Call::Element { value } => drop(black_box(element::read(value.slice(&self.portions)))),
            Call::Finish => drop(black_box(self.portions.finish())),
            _ => unreachable!("no call that reads"),
        }
    }

    fn answer(&mut self, call: &Call) -> Option<Answer> {
        let (table, portions) = (&mut self.table, &self.portions);
        match *call {
            Call::Default { bearer } => Some(calls::activate_default(table, bearer)),
            Call::Dedicated { bearer, link, transaction, ref value } => {
                Some(calls::activate_dedicated(table, bearer, link, transaction, value.slice(portions)))
            }
            Call::Modify { bearer, transaction, ref value } => {
                Some(calls::modify(table, bearer, transaction, value.slice(portions)))
            }
            Call::Deactivate { bearer, transaction } => Some(calls::deactivate(table, bearer, transaction)),
            Call::Start { transaction, bearer } => Some(calls::start(table, transaction, bearer)),
            Call::Reject { transaction, cause } => Some(calls::reject(table, transaction, cause)),
            _ => None,
        }
    }

    fn compose(&mut self, call: &Call, out: &mut Text) -> Option<()> {
        if let Call::Compose { kind } = *call {
            self.composed = Some(Operation::new(kind));
            text::words(out, "composing ");
            text::words(out, text::kind(kind));
            text::words(out, "\n");
            return Some(());
        }
        let composed = self.composed.as_mut()?;
        match *call {
            Call::Filter { identifier, filter } => {
                composed.row[usize::from(identifier)] = filter;
                text::filter(out, identifier, &filter);
            }
            Call::Identifier { identifier } => {
                composed.identifiers |= 1 << identifier;
                text::line(out, "identifier ", identifier);
            }
            Call::Emit { size } => written(size, out, |buffer| element::write(composed, buffer)),
            _ => return None,
        }
        Some(())
    }

    fn by_hand(&mut self, call: &Call, out: &mut Text) {
        match *call {
            Call::Force { bearer, role, transaction } => {
                let forced = self.table.bearer_mut(bearer).expect(WITHIN);
                forced.role = role;
                forced.transaction = transaction;
                self.table.list_anew();
                text::line(out, "forced ", bearer);
            }
            Call::Place { bearer, identifier, filter } => {
                self.table.bearer_mut(bearer).expect(WITHIN).row[usize::from(identifier)] = filter;
                self.table.list_anew();
                text::words(out, "placed ");
                text::number(out, bearer);
                text::line(out, " ", identifier);
            }
            Call::ForceEntry { identity, position, entry } => {
                self.table.list_mut(identity).expect(WITHIN).set(position, entry);
                text::words(out, "forced-entry\n");
            }
            _ => unreachable!("no call by hand"),
        }
    }
}

fn check(table: &Table, out: &mut Text) {
    if table.is_well_formed() {
        text::words(out, "well formed\n");
    } else {
        text::line(out, "refused ", NOT_WELL_FORMED);
    }
}

fn synchronise(table: &mut Table, octets: &[u8], out: &mut Text) {
    match status::synchronise(table, octets) {
        Ok(gone) => text::synchronised(out, gone),
        Err(number) => text::line(out, "refused ", number),
    }
}

fn compare(table: &Table, octets: &[u8], out: &mut Text) {
    match status::compare(table, octets) {
        Ok(comparison) => text::comparison(out, &comparison),
        Err(number) => text::line(out, "refused ", number),
    }
}

fn announce(portions: &mut Portions, length: u16, out: &mut Text) {
    match portions.announce(length) {
        Ok(()) => text::line(out, "announced ", length),
        Err(cause) => text::line(out, "cause ", cause),
    }
}

fn portion(portions: &mut Portions, octets: &[u8], out: &mut Text) {
    match portions.feed(octets) {
        Ok(fed) => text::line(out, "fed ", fed),
        Err(number) => text::line(out, "refused ", number),
    }
}

fn finish(portions: &Portions, out: &mut Text) {
    match portions.finish() {
        Ok(read) => reading(&read, out),
        Err(number) => text::line(out, "refused ", number),
    }
}

fn parse(octets: &[u8], out: &mut Text) {
    match messages::read(octets) {
        Ok(message) => text::message(out, &message),
        Err(fault) => text::line(out, "refused ", fault.number()),
    }
}

fn message(table: &mut Table, octets: &[u8], out: &mut Text) {
    let handled = messages::handle(table, octets);
    text::answer(out, &handled.answer);
    if let Some(message) = handled.sent {
        let mut buffer = [BEFORE; LARGEST_BUFFER];
        let length = messages::write(&message, &mut buffer).expect("an answer can be read back");
        text::sent(out, &buffer[..length]);
    }
}

fn reading(read: &Reading, out: &mut Text) {
    match read {
        Ok(operation) => text::operation(out, operation),
        Err(refusal) => text::refusal(out, "cause ", refusal),
    }
}

fn rewrite(octets: &[u8], size: usize, out: &mut Text) {
    match element::read(octets) {
        Ok(operation) => written(size, out, |buffer| element::write(&operation, buffer)),
        Err(refusal) => text::refusal(out, "cause ", &refusal),
    }
}

/// What a writer makes of a buffer of that size.
fn written(size: usize, out: &mut Text, write: impl FnOnce(&mut [u8]) -> Result<usize, u8>) {
    let mut buffer = [BEFORE; LARGEST_BUFFER];
    match write(&mut buffer[..size]) {
        Ok(length) => {
            text::words(out, "wrote ");
            text::number(out, length as u64);
            text::words(out, " ");
            text::buffer(out, &buffer[..size]);
            text::words(out, "\n");
        }
        Err(number) => text::line(out, "refused ", number),
    }
}
