//! The forms that a reply can take, and how often each stands in an output.

mod lists;
mod messages;
mod places;

use std::iter::{once, repeat};

use crate::filter::{Header, Type, SCTP};
use crate::lines::{Line, LONGEST_LINE};
use crate::portions::Unsound;
use crate::route::first_that_fits;
use crate::script::{asked, Asked, Call};
use crate::session::Session;
use crate::table::Table;
use crate::text::Text;
use messages::About;
use places::Broken;

/// Every form that the bench language has but for those of messages, of held lists and those with a place, numbers and lists left out but for
/// those that are the point of the reply.
pub const FORMS: [&str; 122] = [
    "accept",
    "accept follow-up",
    "reject 41",
    "reject 43",
    "reject 47",
    "release",
    "re-attach",
    "started",
    "closed",
    "bearer",
    "discard",
    "well formed",
    "refused 1",
    "refused 2",
    "refused 3",
    "refused 4",
    "refused 5",
    "refused 6",
    "refused 7",
    "refused 8",
    "refused 9",
    "refused 10",
    "refused 11",
    "create",
    "add",
    "replace",
    "delete-filters",
    "delete-tft",
    "none",
    "end",
    "wrote",
    "composing create",
    "composing add",
    "composing replace",
    "composing delete-filters",
    "composing delete-tft",
    "composing none",
    "filter",
    "identifier",
    "forced",
    "placed",
    "bearer idle",
    "bearer default",
    "bearer dedicated",
    "  filter remote4",
    "  filter remote6",
    "  filter protocol",
    "  filter local",
    "  filter remote",
    "  filter other",
    "echo on",
    "echo off",
    "bad line",
    "status: wrote",
    "status: refused 1",
    "status: refused 9",
    "status: bad line",
    "synchronise: synchronised",
    "synchronise: synchronised E",
    "synchronise: synchronised E..",
    "synchronise: refused 1",
    "synchronise: refused 12",
    "synchronise: bad line",
    "compare: both here network",
    "compare: both here network E",
    "compare: both here E network",
    "compare: both here E network E",
    "compare: both E here network",
    "compare: both E here network E",
    "compare: both E here E network",
    "compare: both E here E network E",
    "compare: refused 1",
    "compare: refused 12",
    "compare: bad line",
    "announce: announced",
    "announce: announced 0",
    "announce: announced 255",
    "announce: cause 42",
    "announce: bad line",
    "portion: fed",
    "portion: fed 0",
    "portion: fed 255",
    "portion: refused 13, past what was announced",
    "portion: refused 13, more fed than announced",
    "portion: refused 13, an octet past what was fed",
    "portion: bad line",
    "finish: create",
    "finish: add",
    "finish: replace",
    "finish: delete-filters",
    "finish: delete-tft",
    "finish: none",
    "finish: refused 13, more fed than announced",
    "finish: refused 13, an octet past what was fed",
    "finish: refused 14",
    "finish: bad line",
    "force-fed: forced-fed",
    "force-fed: bad line",
    "element fed: read",
    "element fed: cause",
    "rewrite fed: wrote",
    "rewrite fed: refused 9",
    "rewrite fed: cause",
    "modify fed: accept",
    "modify fed: reject for the element",
    "modify fed: reject for the table",
    "modify fed: refused 1",
    "dedicated fed: accept",
    "dedicated fed: reject for the element",
    "dedicated fed: reject for the table",
    "dedicated fed: refused 1",
    "fed: conflict",
    "fed: bad line",
    "filter SCTP ports",
    "  filter SCTP local",
    "  filter SCTP remote",
    "  filter SCTP local remote",
    "route of SCTP: bearer by SCTP ports",
    "route of SCTP: bearer by ports alone",
    "route of SCTP: bearer by no ports",
    "route of SCTP: bearer by no filter",
    "route of SCTP: discard",
];

/// The lines whose replies are counted apart, since others give some of the same.
const COUNTED_APART: [&str; 17] = [
    "list",
    "force-entry",
    "why",
    "parse",
    "message",
    "assemble",
    "status",
    "synchronise",
    "compare",
    "announce",
    "portion",
    "finish",
    "force-fed",
    "element fed",
    "rewrite fed",
    "modify fed",
    "dedicated fed",
];

/// The lines that take `fed` for their HEX.
const TAKE_FED: [&str; 4] = ["element", "rewrite", "modify", "dedicated"];

const LEAST: usize = 10;

/// A line of output that is a reply or part of one, the word of the line that it replies to, and what stood when it came. Of a reply of
/// many lines the first alone has a word: filters read the same whatever line they are for. `beside` are the forms that it counts for
/// besides its own.
#[derive(Clone, PartialEq, Eq, Debug)]
pub struct Reply {
    word: String,
    standing: Standing,
    line: String,
    beside: Vec<String>,
}

/// What tells replies apart that read the same: what is wrong with the state of portions, what decides the route of an SCTP packet, what a
/// message says, what is wrong with an element, and what a held list has.
#[derive(Clone, PartialEq, Eq, Debug)]
struct Standing {
    unsound: Option<Unsound>,
    sctp: Option<Decider>,
    about: Option<About>,
    broken: Option<Broken>,
    held: Option<lists::About>,
}

/// The kind of filter that decides a route.
#[derive(Clone, Copy, PartialEq, Eq, Debug)]
enum Decider {
    SctpPorts,
    PortsAlone,
    NoPorts,
    NoFilter,
}

impl Standing {
    fn before(session: &Session, line: &[u8]) -> Standing {
        let (mut sctp, mut about, mut broken, mut held) = (None, None, None, None);
        if let Asked::Call { times, call } = asked(line) {
            about = About::of(&call, times, &session.table);
            broken = Broken::of(&call, &session.portions);
            held = lists::About::of(&call, &session.table);
            sctp = match call {
                Call::Route { default, header } if header.protocol == SCTP => {
                    Some(Decider::of(&session.table, default, &header))
                }
                _ => None,
            };
        }
        Standing { unsound: session.portions.unsound(), sctp, about, broken, held }
    }
}

impl Decider {
    fn of(table: &Table, default: u8, header: &Header) -> Decider {
        let decides = first_that_fits(table, default, header);
        let filter = decides.and_then(|(_, entry)| table.filter(&entry));
        match filter {
            None => Decider::NoFilter,
            Some(filter) if !filter.holds_ports() => Decider::NoPorts,
            Some(filter) if filter.holds(Type::Protocol) => Decider::SctpPorts,
            Some(_) => Decider::PortsAlone,
        }
    }

    fn name(self) -> &'static str {
        match self {
            Decider::SctpPorts => "SCTP ports",
            Decider::PortsAlone => "ports alone",
            Decider::NoPorts => "no ports",
            Decider::NoFilter => "no filter",
        }
    }
}

impl Reply {
    fn forms(&self) -> impl Iterator<Item = String> + '_ {
        once(self.form()).chain(self.beside.iter().cloned())
    }

    fn form(&self) -> String {
        let form = match self.standing.broken {
            Some(broken) => broken.form(&self.word, &form(&self.line)),
            None => form(&self.line),
        };
        if let Some(decider) = self.standing.sctp {
            return sctp_route_form(&form, decider);
        }
        if !COUNTED_APART.contains(&self.word.as_str()) {
            return form;
        }
        if let Some(about) = self.standing.about.as_ref().filter(|_| form != "bad line") {
            return about.form(&form);
        }
        if let Some(held) = self.standing.held.filter(|_| form != "bad line") {
            return held.form(&form);
        }
        let fed = self.word.ends_with(" fed");
        match form.as_str() {
            "refused 13" => format!("{}: refused 13, {}", self.word, self.why_13()),
            "accept follow-up" | "release" | "re-attach" if fed => "fed: conflict".to_string(),
            "bad line" if fed => "fed: bad line".to_string(),
            _ if fed => format!("{}: {}", self.word, outcome(&form)),
            _ => format!("{}: {form}", self.word),
        }
    }

    /// The number is one for all three.
    fn why_13(&self) -> &'static str {
        match self.standing.unsound {
            None => "past what was announced",
            Some(Unsound::MoreFedThanAnnounced) => "more fed than announced",
            Some(Unsound::OctetPastFed) => "an octet past what was fed",
        }
    }
}

/// The word that says what a line asks for: its first one, or the one after `repeat N`. Where it takes `fed` and has it, that stands with it.
fn word(line: &[u8]) -> String {
    let mut words = line.split(|octet| *octet == b' ').filter(|word| !word.is_empty());
    let word = match words.next() {
        Some(b"repeat") => words.nth(1),
        first => first,
    };
    let word = String::from_utf8_lossy(word.unwrap_or_default()).into_owned();
    if TAKE_FED.contains(&word.as_str()) && words.any(|after| after == b"fed") {
        format!("{word} fed")
    } else {
        word
    }
}

/// What is told apart where `fed` stands: each form is counted where HEX does.
fn outcome(form: &str) -> &str {
    match (form.split_once(" at "), form) {
        (Some(("cause 42" | "cause 44" | "cause 45", _)), _) => "cause",
        (Some(("reject 42" | "reject 44" | "reject 45", _)), _) => "reject for the element",
        (None, "reject 41" | "reject 43" | "reject 47") => "reject for the table",
        (None, "create" | "add" | "replace" | "delete-filters" | "delete-tft" | "none") => "read",
        _ => form,
    }
}

/// Refusals are for the table, the default or the version, and so are counted with those of other packets.
fn sctp_route_form(form: &str, decider: Decider) -> String {
    match form {
        "bearer" => format!("route of SCTP: bearer by {}", decider.name()),
        "discard" => "route of SCTP: discard".to_string(),
        _ => form.to_string(),
    }
}

/// The form of a line of output, or the line itself where it has none.
fn form(line: &str) -> String {
    let words: Vec<&str> = line.split(' ').collect();
    match words.as_slice() {
        ["accept", _, "follow-up", _, ..] => "accept follow-up".to_string(),
        ["accept" | "release" | "started" | "closed" | "bearer" | "forced" | "identifier", _] => {
            words[0].to_string()
        }
        ["announced" | "fed", length] if !matches!(*length, "0" | "255") => words[0].to_string(),
        ["placed" | "wrote", _, _] => words[0].to_string(),
        ["reject", _, why @ ..] => format!("reject {}", why.join(" ")),
        ["bearer", _, role, .., "transaction", _] => format!("bearer {role}"),
        ["bearer", _, "filter", _, "precedence", precedence] => format!("bearer by filter {precedence}"),
        ["bearer", _, "default"] => "bearer by default".to_string(),
        ["position", _, "bearer", _, "identifier", _] => "position".to_string(),
        ["delete-filters", _, ..] => "delete-filters".to_string(),
        ["filter", _, "precedence", _, "direction", _, components @ ..] => match sctp_ports(components) {
            Some(_) => "filter SCTP ports".to_string(),
            None => "filter".to_string(),
        },
        ["", "", "filter", _, "precedence", _, "direction", _, components @ ..] => filter_form(components),
        ["bad", "line", _] => "bad line".to_string(),
        ["synchronised", _] => "synchronised E".to_string(),
        ["synchronised", _, _, ..] => "synchronised E..".to_string(),
        ["both", ..] => lists_form(&words),
        ["send", octets] => format!("send {}", octets.get(4..6).unwrap_or_default()),
        _ => line.to_string(),
    }
}

/// By the first component, but for SCTP with ports, whatever stands before.
fn filter_form(components: &[&str]) -> String {
    let first = components.first().copied().unwrap_or_default();
    let name = match (sctp_ports(components), first) {
        (Some(ports), _) => ports,
        (None, "remote4" | "remote6" | "protocol") => first,
        (None, "local-port" | "local-range") => "local",
        (None, "remote-port" | "remote-range") => "remote",
        (None, _) => "other",
    };
    format!("  filter {name}")
}

/// Which ports stand beside SCTP, if any do.
fn sctp_ports(components: &[&str]) -> Option<&'static str> {
    let has = |name: &str| components.contains(&name);
    let sctp = components.windows(2).any(|words| words == ["protocol", "132"]);
    match (has("local-port") || has("local-range"), has("remote-port") || has("remote-range")) {
        _ if !sctp => None,
        (true, true) => Some("SCTP local remote"),
        (true, false) => Some("SCTP local"),
        (false, true) => Some("SCTP remote"),
        (false, false) => None,
    }
}

/// Every list that is not empty is an E.
fn lists_form(words: &[&str]) -> String {
    let is_name = |word: &str| matches!(word, "both" | "here" | "network");
    let mut form: Vec<&str> = words.iter().map(|word| if is_name(word) { word } else { "E" }).collect();
    form.dedup();
    form.join(" ")
}

/// All that a script gives, and the replies in it alone. An echoed line may read like a reply, so the two are told apart as they are made.
pub fn played(mut script: &[u8]) -> (Text, Vec<Reply>) {
    let (mut session, mut line) = (Session::default(), Line::new(LONGEST_LINE));
    let (mut output, mut replies, mut watch) = (Text::new(), Vec::new(), lists::Watch::default());
    while line.next(&mut script).expect("a slice is read") {
        session.write_echo(&line.octets, line.is_too_long(), &mut output);
        let (start, standing) = (output.len(), Standing::before(&session, &line.octets));
        let (table, portions) = (session.table, session.portions);
        session.do_line(line.number, &line.octets, line.is_too_long(), &mut output);
        let reply = String::from_utf8_lossy(&output[start..]);
        let beside = match asked(&line.octets) {
            Asked::Call { call, .. } => watch.beside(&call, &portions, [&table, &session.table], &reply),
            _ => Vec::new(),
        };
        replies.extend(replies_in(&reply, &line.octets, standing, beside));
    }
    (output, replies)
}

fn replies_in(reply: &str, asked: &[u8], standing: Standing, beside: Vec<String>) -> Vec<Reply> {
    let words = once((word(asked), beside)).chain(repeat((String::new(), Vec::new())));
    let reply_of = |(line, (word, beside)): (&str, (String, Vec<String>))| {
        let standing = standing.clone();
        Reply { word, standing, line: line.to_string(), beside }
    };
    reply.lines().zip(words).map(reply_of).collect()
}

fn all_forms() -> impl Iterator<Item = &'static str> {
    FORMS.into_iter().chain(places::FORMS).chain(messages::FORMS).chain(lists::FORMS)
}

/// How often each form stands in replies, and what is wrong: lines of no form, and forms too rare.
pub fn count(replies: &[Reply]) -> (Vec<(&'static str, usize)>, Vec<String>) {
    let forms: Vec<String> = replies.iter().flat_map(Reply::forms).collect();
    let times = |wanted: &str| forms.iter().filter(|form| *form == wanted).count();
    let counts: Vec<(&str, usize)> = all_forms().map(|wanted| (wanted, times(wanted))).collect();
    let unknown = forms.iter().filter(|form| !all_forms().any(|known| known == *form));
    let unknown = unknown.map(|line| format!("no form: {line}"));
    let rare = counts.iter().filter(|(_, times)| *times < LEAST);
    let rare = rare.map(|(form, times)| format!("only {times} times: {form}"));
    let wrong = unknown.chain(rare).collect();
    (counts, wrong)
}

#[cfg(test)]
mod tests {
    use super::*;
    use crate::generator::script;

    #[test]
    fn generated_scripts_show_every_form_often_enough() {
        for seed in [0, 1, 2, 3, 4, 20260401] {
            let (_, wrong) = count(&played(&script(seed, 25_100)).1);
            assert!(wrong.is_empty(), "seed {seed}:\n{}", wrong.join("\n"));
        }
    }

    #[test]
    fn echoed_lines_are_no_replies() {
        let (output, replies) = played(b"echo on\nwell formed\ncheck\necho off\n\nshow\n");
        assert_eq!(
            output,
            b"echo on\nwell formed\nbad line 2\ncheck\nwell formed\necho off\necho off\nend\n"
        );
        let replies: Vec<String> = replies.into_iter().map(|reply| reply.line).collect();
        assert_eq!(replies, ["echo on", "bad line 2", "well formed", "echo off", "end"]);
    }

    fn forms(script: &str) -> Vec<String> {
        played(script.as_bytes()).1.iter().map(Reply::form).collect()
    }

    #[test]
    fn replies_to_the_lines_of_the_status_are_told_apart() {
        assert_eq!(forms("emit 2\ncheck\n"), ["bad line", "well formed"]);
        assert_eq!(forms("status 2\nstatus 1\nstatus"), ["wrote", "refused 9", "bad line"].map(of("status")));
        assert_eq!(forms("  repeat 2   compare -\nrepeat compare -\n"), ["compare: refused 12", "bad line"]);
        assert_eq!(forms("force 5 idle 1\nsynchronise -\n"), ["forced", "synchronise: refused 1"]);
    }

    #[test]
    fn replies_to_the_lines_of_portions_are_told_apart() {
        assert_eq!(
            forms("announce 0\nannounce 9\nannounce 256\nannounce 65536"),
            ["announced 0", "announced", "cause 42", "bad line"].map(of("announce"))
        );
        assert_eq!(
            forms("portion -\nportion 00\nportion fed"),
            ["fed 0", "refused 13, past what was announced", "bad line"].map(of("portion"))
        );
        let full = forms(&format!("announce 255\nrepeat 254 portion C0\n repeat 1 portion {}\n", "40"));
        assert_eq!(full, ["announce: announced 255", "portion: fed", "portion: fed 255"]);
        let unsound = forms("force-fed 0 1 C0\nportion -\nfinish\nforce-fed 9 0 C0\nportion -\nfinish\n");
        let (more, past) = ("refused 13, more fed than announced", "refused 13, an octet past what was fed");
        assert_eq!(unsound[1..3], [of("portion")(more), of("finish")(more)]);
        assert_eq!(unsound[4..], [of("portion")(past), of("finish")(past)]);
    }

    #[test]
    fn what_was_fed_is_counted_apart_from_hexadecimal() {
        let fed = |lines: &str| {
            forms(&format!("default 5\nforce-fed 9 9 21310A0530115013C4\n{lines}"))[2..].to_vec()
        };
        let filter = "  filter protocol".to_string();
        assert_eq!(fed("element C0"), ["none", "end"]);
        assert_eq!(fed("element fed"), ["element fed: read".to_string(), filter.clone(), "end".to_string()]);
        assert_eq!(fed("finish"), ["finish: create".to_string(), filter, "end".to_string()]);
        assert_eq!(fed("modify 5 0 fed\nmodify 5 0 C0"), ["modify fed: accept", "accept"]);
        assert_eq!(fed("repeat 2 dedicated 6 5 0 fed"), ["dedicated fed: reject for the table"]);
        assert_eq!(fed("rewrite fed 8\nrewrite fed"), ["rewrite fed: refused 9", "fed: bad line"]);
        assert_eq!(fed("element Fed\nportion fed"), ["bad line", "portion: bad line"]);
    }

    #[test]
    fn filters_of_sctp_with_ports_are_told_apart() {
        let show = |components: &str| forms(&format!("place 5 0 0 0 {components}\nshow\n"))[2].clone();
        assert_eq!(show("30 84"), "  filter protocol");
        assert_eq!(show("30 84 50 0084"), "  filter SCTP remote");
        assert_eq!(show("30 84 41 00010002 10 0102030400000000"), "  filter SCTP local");
        assert_eq!(show("51 00010002 40 0000 30 84"), "  filter SCTP local remote");
        assert_eq!(show("30 83 50 0084"), "  filter protocol");
        assert_eq!(show("40 0084"), "  filter local");
        let composed =
            forms("compose create\nfilter 1 1 1 30 84\nfilter 132 1 1\nfilter 1 1 1 30 84 40 0000\n");
        assert_eq!(composed[1..], ["filter", "bad line", "filter SCTP ports"]);
    }

    #[test]
    fn routes_of_sctp_are_told_apart_by_what_decides() {
        let routed = |filters: &str| {
            let table = format!("default 5\ndedicated 6 5 0 {filters}\n");
            let route = "route 5 4 1.2.3.4 132 7 9 0 0 0\nrepeat 2 route 5 6 1.2.3.4 6 7 9 0 0 0\n";
            forms(&format!("{table}{route}"))[2..].to_vec()
        };
        assert_eq!(routed("213100053084500009"), ["route of SCTP: bearer by SCTP ports", "bearer"]);
        assert_eq!(routed("213100053084500008"), ["route of SCTP: bearer by no filter", "bearer"]);
        assert_eq!(routed("21310003400007"), ["route of SCTP: bearer by ports alone", "bearer"]);
        assert_eq!(routed("213100023084"), ["route of SCTP: bearer by no ports", "bearer"]);
        let discarded = "default 5\nmodify 5 0 213100023011\nrepeat 3  route 5 4 1.2.3.4 132 7 9 0 0 0\n";
        assert_eq!(forms(discarded)[2..], ["route of SCTP: discard"]);
        let refused = "default 5\nroute 5 5 1.2.3.4 132 7 9 0 0 0\nroute 6 4 1.2.3.4 132 7 9 0 0 0\n";
        assert_eq!(forms(refused)[1..], ["refused 2", "refused 8"]);
    }

    #[test]
    fn lists_are_empty_or_not() {
        let table = "default 5\ndefault 6\ndefault 7\ndefault 12\n";
        let after = |lines: &str| forms(&format!("{table}{lines}"))[4..].to_vec();
        let gone = after("synchronise FFFF\nsynchronise FF0F\nsynchronise 0000");
        assert_eq!(gone, ["synchronised", "synchronised E", "synchronised E.."].map(of("synchronise")));
        let lists = after("compare FFFF\ncompare E010\ncompare 0011\ncompare 0001\ncompare 0000");
        let expected = ["both E here network E", "both E here network", "both E here E network E"];
        assert_eq!(lists[..3], expected.map(of("compare")));
        assert_eq!(lists[3..], ["both here E network E", "both here E network"].map(of("compare")));
    }

    fn of(word: &str) -> impl Fn(&str) -> String + '_ {
        move |form| format!("{word}: {form}")
    }
}
