//! The forms of replies to the lines of held lists, and what other lines have to do with the lists besides their replies.

use crate::element;
use crate::list::Entry;
use crate::messages::received;
use crate::portions::Portions;
use crate::script::Call;
use crate::table::{connection_of, identities, Role, Table, BEARERS, LOWEST_IDENTITY};
use crate::text;

pub const FORMS: [&str; 72] = [
    "position",
    "list of a default: empty",
    "list of a default: one entry",
    "list of a default: several entries",
    "list of a dedicated bearer: empty",
    "list of an idle bearer: empty",
    "list of a default: false",
    "list of a dedicated bearer: false",
    "list of an idle bearer: false",
    "list by hand of a default",
    "list by hand of another",
    "list: bad line",
    "force-entry: the same",
    "force-entry: one is missing",
    "force-entry: another bearer",
    "force-entry: another identifier",
    "force-entry: one too many in the list of a default",
    "force-entry: one too many in the list of a dedicated bearer",
    "force-entry: one too many in the list of an idle bearer",
    "force-entry: still false",
    "force-entry: mends",
    "force-entry: bad line",
    "why: bearer by the first filter listed",
    "why: bearer by a later filter",
    "why: bearer by default",
    "why: discard",
    "why: refused 1",
    "why: refused 2",
    "why: refused 8",
    "why: bad line",
    "list after modify create",
    "list after modify add",
    "list after modify replace",
    "list after modify delete-filters",
    "list after modify delete-tft",
    "list after modify none",
    "list after a follow-up",
    "list after a release",
    "list after a re-attach",
    "list after dedicated",
    "list after deactivate of a default",
    "list after deactivate of a dedicated bearer",
    "list after reject",
    "list after synchronise",
    "list after message dedicated-request",
    "list after message modify-request",
    "list after message deactivate-request",
    "list after message modification-reject",
    "list after a call that was rejected",
    "list after force",
    "list after place",
    "false list: default refused",
    "false list: dedicated refused",
    "false list: modify refused",
    "false list: deactivate refused",
    "false list: start refused",
    "false list: reject refused",
    "false list: route refused",
    "false list: why refused",
    "false list: check refused",
    "false list: status refused",
    "false list: synchronise refused",
    "false list: compare refused",
    "false list: message dedicated-request refused",
    "false list: message modify-request refused",
    "false list: message deactivate-request refused",
    "false list: message modification-reject refused",
    "false list: message that is none refused",
    "false list: element read",
    "false list: table shown",
    "false list: mended by force",
    "false list: mended by place",
];

/// What a line of held lists is about, where it is one.
#[derive(Clone, Copy, PartialEq, Eq, Debug)]
pub enum About {
    Listed { of: &'static str, entries: usize, table: Held },
    Forced(&'static str),
    Tried { first: Option<u8> },
}

/// Whether the held lists are what the rule gives, and then whether the table is well formed.
#[derive(Clone, Copy, PartialEq, Eq, Debug)]
pub enum Held {
    False,
    ByHand,
    WellFormed,
}

impl Held {
    fn of(table: &Table) -> Held {
        if *table != table.listed_anew() {
            Held::False
        } else if !table.is_well_formed() {
            Held::ByHand
        } else {
            Held::WellFormed
        }
    }
}

impl About {
    pub fn of(call: &Call, table: &Table) -> Option<About> {
        match *call {
            Call::List { identity } => Some(About::listed(identity, table)),
            Call::ForceEntry { identity, position, entry } => {
                Some(About::Forced(forced(table, identity, position, entry)))
            }
            Call::Why { default, .. } => {
                let first = table.list(default).and_then(|list| list.entries().next());
                Some(About::Tried { first: first.map(|(position, _)| position) })
            }
            _ => None,
        }
    }

    /// A list is false or not by itself, whatever the others are.
    fn listed(identity: u8, table: &Table) -> About {
        let (held, rule) = (table.list(identity), table.listed_anew());
        let entries = held.map_or(0, |list| list.entries().count());
        let mended = if held == rule.list(identity) { rule } else { *table };
        About::Listed { of: name(table, identity), entries, table: Held::of(&mended) }
    }

    /// The form of the first line of a reply that has this one where it is not for a list.
    pub fn form(&self, form: &str) -> String {
        match *self {
            About::Listed { of, table: Held::False, .. } => format!("list of {of}: false"),
            About::Listed { of: "a default", table: Held::ByHand, .. } => {
                "list by hand of a default".to_string()
            }
            About::Listed { table: Held::ByHand, .. } => "list by hand of another".to_string(),
            About::Listed { of, entries, .. } => format!("list of {of}: {}", count(entries)),
            About::Forced(what) => format!("force-entry: {what}"),
            About::Tried { first } => format!("why: {}", tried(form, first)),
        }
    }
}

fn count(entries: usize) -> &'static str {
    match entries {
        0 => "empty",
        1 => "one entry",
        _ => "several entries",
    }
}

fn name(table: &Table, identity: u8) -> &'static str {
    match table.bearer(identity).map_or(Role::Idle, |bearer| bearer.role) {
        Role::Idle => "an idle bearer",
        Role::Default => "a default",
        Role::Dedicated { .. } => "a dedicated bearer",
    }
}

/// By where the precedence is in the list.
fn tried(form: &str, first: Option<u8>) -> String {
    match form.strip_prefix("bearer by filter ") {
        Some(precedence) if precedence.parse().ok() == first => {
            "bearer by the first filter listed".to_string()
        }
        Some(_) => "bearer by a later filter".to_string(),
        None => form.to_string(),
    }
}

/// What a forced entry does to lists that are as the rule has them, or are not.
fn forced(table: &Table, identity: u8, position: u8, entry: Option<Entry>) -> &'static str {
    let (rule, mut after) = (table.listed_anew(), *table);
    after.list_mut(identity).expect("the script takes 5 to 15").set(position, entry);
    let right = rule.list(identity).and_then(|list| list.at(position));
    match (right, entry) {
        _ if after == rule && *table == rule => "the same",
        _ if after == rule => "mends",
        _ if *table != rule => "still false",
        (Some(_), None) => "one is missing",
        (Some(right), Some(entry)) if right.bearer != entry.bearer => "another bearer",
        (Some(_), Some(_)) => "another identifier",
        (None, _) => match name(table, identity) {
            "a default" => "one too many in the list of a default",
            "a dedicated bearer" => "one too many in the list of a dedicated bearer",
            _ => "one too many in the list of an idle bearer",
        },
    }
}

/// Follows a script and knows of each list what was last done to it, until it is looked at.
#[derive(Default)]
pub struct Watch {
    done: [Option<String>; BEARERS],
}

impl Watch {
    /// The forms that a line counts for besides that of its reply.
    pub fn beside(
        &mut self,
        call: &Call,
        portions: &Portions,
        tables: [&Table; 2],
        reply: &str,
    ) -> Vec<String> {
        let [before, after] = tables;
        let first = reply.lines().next().unwrap_or_default();
        if first.starts_with("bad line") {
            return Vec::new();
        }
        let mut forms: Vec<String> = self.looked_at(call, before).into_iter().collect();
        if *before != before.listed_anew() {
            forms.extend(on_false_list(call, after, first));
        }
        self.note(call, portions, tables, first);
        forms
    }

    fn looked_at(&mut self, call: &Call, table: &Table) -> Option<String> {
        match *call {
            Call::List { identity } if *table == table.listed_anew() => {
                self.done[place(identity)].take().map(|done| format!("list after {done}"))
            }
            _ => None,
        }
    }

    fn note(&mut self, call: &Call, portions: &Portions, [before, after]: [&Table; 2], reply: &str) {
        for identity in identities() {
            let changed = before.list(identity) != after.list(identity);
            if changed || left_on_purpose(call, portions, before, reply) == Some(identity) {
                self.done[place(identity)] = name_of_call(call, portions, before, reply);
            }
        }
    }
}

fn place(identity: u8) -> usize {
    usize::from(identity - LOWEST_IDENTITY)
}

/// What a call did to a list, by its reply where that says more than the call does.
fn name_of_call(call: &Call, portions: &Portions, before: &Table, reply: &str) -> Option<String> {
    let name = match (reply.split(' ').next().unwrap_or_default(), call) {
        ("release", _) => "a release",
        ("re-attach", _) => "a re-attach",
        ("reject", _) => "a call that was rejected",
        _ if reply.contains("follow-up") => "a follow-up",
        (_, Call::Modify { value, .. }) => {
            let kind = element::read(value.slice(portions)).ok()?.kind;
            return Some(format!("modify {}", text::kind(kind)));
        }
        (_, Call::Dedicated { .. }) => "dedicated",
        (_, Call::Deactivate { bearer, .. }) => {
            return Some(format!("deactivate of {}", name(before, *bearer)));
        }
        (_, Call::Reject { .. }) => "reject",
        (_, Call::Synchronise { .. }) => "synchronise",
        (_, Call::Message { octets }) => return Some(message_name(octets.slice())),
        (_, Call::Force { .. }) => "force",
        (_, Call::Place { .. }) => "place",
        _ => return None,
    };
    Some(name.to_string())
}

fn message_name(octets: &[u8]) -> String {
    let kind = received(octets).map(|message| text::message_kind(message.kind));
    format!("message {}", kind.unwrap_or("that is none"))
}

/// The default whose list, with something in it, a rejected call or one without an operation must leave.
fn left_on_purpose(call: &Call, portions: &Portions, before: &Table, reply: &str) -> Option<u8> {
    let (bearer, none) = match call {
        Call::Modify { bearer, value, .. } => {
            let kind = element::read(value.slice(portions)).map(|operation| operation.kind);
            (*bearer, kind == Ok(element::Kind::None))
        }
        Call::Dedicated { link, .. } => (*link, false),
        _ => return None,
    };
    let default = connection_of(bearer, before.bearer(bearer)?.role)?;
    let listed = before.list(default)?.entries().next().is_some();
    let left = reply.starts_with("reject ") || none && reply.starts_with("accept ");
    (left && listed).then_some(default)
}

/// What comes of a line on a table whose lists are false, though all else is well formed.
fn on_false_list(call: &Call, after: &Table, reply: &str) -> Option<String> {
    let right = after.listed_anew();
    if !right.is_well_formed() {
        return None;
    }
    let (mended, refused) = (*after == right, reply == "refused 1");
    let what = match call {
        Call::Force { .. } if mended => "mended by force".to_string(),
        Call::Place { .. } if mended => "mended by place".to_string(),
        Call::Show => "table shown".to_string(),
        Call::Element { .. } | Call::Rewrite { .. } | Call::Finish => "element read".to_string(),
        _ if refused => format!("{} refused", refused_name(call)?),
        _ => return None,
    };
    Some(format!("false list: {what}"))
}

fn refused_name(call: &Call) -> Option<String> {
    let name = match call {
        Call::Default { .. } => "default",
        Call::Dedicated { .. } => "dedicated",
        Call::Modify { .. } => "modify",
        Call::Deactivate { .. } => "deactivate",
        Call::Start { .. } => "start",
        Call::Reject { .. } => "reject",
        Call::Route { .. } => "route",
        Call::Why { .. } => "why",
        Call::Check => "check",
        Call::Status { .. } => "status",
        Call::Synchronise { .. } => "synchronise",
        Call::Compare { .. } => "compare",
        Call::Message { octets } => return Some(message_name(octets.slice())),
        _ => return None,
    };
    Some(name.to_string())
}

#[cfg(test)]
mod tests {
    use crate::forms::{played, Reply};

    /// 5 with 6, which has filter 1 at 10 and filter 2, downlink only, at 11; 8 without TFT.
    const TABLE: &str = "default 5\ndedicated 6 5 0 22310A023011120B023006\ndefault 8\n";

    /// The forms of what follows the table.
    fn forms(lines: &str) -> Vec<String> {
        let replies = played(format!("{TABLE}{lines}").as_bytes()).1;
        replies[3..].iter().flat_map(Reply::forms).collect()
    }

    #[test]
    fn lists_are_told_apart_by_whose_they_are_and_what_they_have() {
        let one = ["list of a default: one entry", "list after dedicated", "end"];
        assert_eq!(forms("list 5"), one);
        assert_eq!(forms("repeat 2 list 5"), one);
        assert_eq!(forms("list 5\nlist 5")[3..], ["list of a default: one entry", "end"]);
        assert_eq!(
            forms("list 8\nlist 6"),
            ["list of a default: empty", "list of a dedicated bearer: empty"]
        );
        assert_eq!(
            forms("list 9\nlist 4\nlist"),
            ["list of an idle bearer: empty", "list: bad line", "list: bad line"]
        );
        assert_eq!(
            forms("modify 6 0 61330C023011\nlist 5")[1..],
            ["list of a default: several entries", "list after modify add", "position", "end"]
        );
    }

    #[test]
    fn lists_by_hand_and_false_ones_are_told_apart() {
        assert_eq!(
            forms("force 9 idle 1\nlist 5\nlist 6")[1..],
            ["list by hand of a default", "list after dedicated", "end", "list by hand of another"]
        );
        assert_eq!(forms("force-entry 5 10 0 0\nlist 5")[1..], ["list of a default: false"]);
        assert_eq!(
            forms("force-entry 6 10 6 1\nlist 6\nlist 9")[1..],
            ["list of a dedicated bearer: false", "end", "list of an idle bearer: empty"]
        );
    }

    #[test]
    fn forced_entries_are_told_apart_by_what_they_do() {
        let forced = |words: &str| forms(&format!("force-entry {words}"))[0].clone();
        assert_eq!(forced("5 10 6 1"), "force-entry: the same");
        assert_eq!(forced("5 9 0 0"), "force-entry: the same");
        assert_eq!(forced("5 10 0 0"), "force-entry: one is missing");
        assert_eq!(forced("5 10 7 1"), "force-entry: another bearer");
        assert_eq!(forced("5 10 6 2"), "force-entry: another identifier");
        assert_eq!(forced("5 11 6 2"), "force-entry: one too many in the list of a default");
        assert_eq!(forced("6 10 6 1"), "force-entry: one too many in the list of a dedicated bearer");
        assert_eq!(forced("9 10 6 1"), "force-entry: one too many in the list of an idle bearer");
        assert_eq!(forced("9 10 6"), "force-entry: bad line");
        assert_eq!(
            forms("force-entry 9 10 6 1\nforce-entry 5 10 0 0\nforce-entry 9 10 0 0\nforce-entry 5 10 6 1")
                [1..],
            ["force-entry: still false", "force-entry: still false", "force-entry: mends"]
        );
    }

    #[test]
    fn reasons_are_told_apart() {
        let why = |before: &str, words: &str| {
            let lines = format!("{before}why {words} 4 1.2.3.4 17 7 9 0 0 0");
            forms(&lines).pop().unwrap()
        };
        assert_eq!(why("", "5"), "why: bearer by the first filter listed");
        assert_eq!(why("modify 5 0 213100023006\n", "5"), "why: bearer by a later filter");
        assert_eq!(why("", "8"), "why: bearer by default");
        assert_eq!(why("modify 8 0 213100023006\n", "8"), "why: discard");
        assert_eq!(why("", "6"), "why: refused 8");
        assert_eq!(why("", "5 5"), "why: bad line");
        assert_eq!(forms("why 5 5 1.2.3.4 17 7 9 0 0 0"), ["why: refused 2"]);
        assert_eq!(why("force-entry 5 10 0 0\n", "5"), "false list: why refused");
    }

    #[test]
    fn a_list_tells_what_was_done_to_it() {
        let after = |lines: &str| {
            let forms = forms(&format!("list 5\n{lines}\nlist 5"));
            forms.into_iter().skip(3).find(|form| form.starts_with("list after"))
        };
        let done = |what: &str| Some(format!("list after {what}"));
        assert_eq!(after("check"), None);
        assert_eq!(after("modify 6 0 21310A023006"), None);
        assert_eq!(after("modify 6 0 21320A023006"), done("modify create"));
        assert_eq!(after("modify 6 0 81110A023006"), done("modify replace"));
        assert_eq!(after("modify 6 0 A101"), done("modify delete-filters"));
        assert_eq!(after("modify 5 0 21310C023006\nmodify 5 0 40"), done("modify delete-tft"));
        assert_eq!(after("modify 6 0 C0"), done("modify none"));
        assert_eq!(after("modify 6 0 40"), done("a call that was rejected"));
        assert_eq!(after("dedicated 7 5 0 21310A023006"), done("a follow-up"));
        assert_eq!(after("modify 5 0 21310C023006\nmodify 6 0 61310C023006"), done("a release"));
        assert_eq!(
            after("deactivate 8 0\nmodify 5 0 21310C023006\nmodify 6 0 61310C023006"),
            done("a re-attach")
        );
        assert_eq!(after("deactivate 5 0"), done("deactivate of a default"));
        assert_eq!(after("deactivate 6 0"), done("deactivate of a dedicated bearer"));
        assert_eq!(after("start 1 6\nreject 1 43"), done("reject"));
        assert_eq!(after("start 1 6\nreject 1 44"), None);
        assert_eq!(after("synchronise 2001"), done("synchronise"));
        assert_eq!(after("message 6200CD24"), done("message deactivate-request"));
        assert_eq!(after("force 6 idle 0"), done("force"));
        assert_eq!(after("place 6 1 0 0"), done("place"));
        assert_eq!(after("force-entry 5 10 0 0\nforce-entry 5 10 6 1"), None);
    }

    #[test]
    fn refusals_for_a_false_list_alone_are_counted_besides() {
        let on_false = |line: &str| forms(&format!("force-entry 9 0 6 1\n{line}"))[1..].to_vec();
        assert_eq!(on_false("check"), ["refused 1", "false list: check refused"]);
        assert_eq!(on_false("modify 5 0 C0"), ["refused 1", "false list: modify refused"]);
        assert_eq!(on_false("modify 5 0 C"), ["bad line"]);
        assert_eq!(on_false("status 1"), ["status: refused 1", "false list: status refused"]);
        assert_eq!(
            on_false("message 5200C9"),
            ["message: refused 1", "false list: message modify-request refused"]
        );
        assert_eq!(on_false("message -"), ["message: refused 1", "false list: message that is none refused"]);
        assert_eq!(on_false("element C0"), ["none", "false list: element read", "end"]);
        assert_eq!(on_false("force 9 idle 0"), ["forced", "false list: mended by force"]);
        assert_eq!(on_false("place 9 0 0 0"), ["placed", "false list: mended by place"]);
        assert_eq!(on_false("force 9 idle 1\ncheck"), ["forced", "refused 1"]);
        assert_eq!(forms("force 9 idle 1\nforce-entry 9 0 6 1\ncheck")[2..], ["refused 1"]);
    }
}
