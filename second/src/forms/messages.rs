//! The forms of replies to the lines of whole messages.

use crate::messages::{read, received, Fault, Kind, Message, Unreadable};
use crate::script::Call;
use crate::table::Table;
use crate::text::message_kind;

/// Those with a place are told elsewhere, but for a TFT of no octets.
pub const FORMS: [&str; 88] = [
    "parse: dedicated-request tft",
    "parse: dedicated-request tft -",
    "parse: dedicated-accept",
    "parse: dedicated-reject",
    "parse: modify-request",
    "parse: modify-request tft",
    "parse: modify-request tft -",
    "parse: modify-accept",
    "parse: modify-reject",
    "parse: deactivate-request",
    "parse: deactivate-accept",
    "parse: modification-reject",
    "parse: refused 15, another discriminator",
    "parse: refused 15, another type",
    "parse: refused 16, under three octets",
    "parse: refused 16, a mandatory part",
    "parse: refused 16, an unlisted element",
    "parse: refused 16, past the end",
    "parse: refused 16, a second TFT",
    "parse: bad line",
    "message dedicated-request tft: accept",
    "message dedicated-request tft: accept follow-up",
    "message dedicated-request tft: reject 41",
    "message dedicated-request tft: reject 43",
    "message dedicated-request tft: reject 47",
    "message dedicated-request tft -: reject 42 at 0",
    "message modify-request: accept",
    "message modify-request: reject 43",
    "message modify-request: reject 47",
    "message modify-request that closes: accept",
    "message modify-request tft: accept",
    "message modify-request tft: accept follow-up",
    "message modify-request tft: reject 41",
    "message modify-request tft: reject 43",
    "message modify-request tft: reject 47",
    "message modify-request tft -: reject 42 at 0",
    "message tft: release",
    "message tft: re-attach",
    "message deactivate-request: accept",
    "message modification-reject: closed",
    "message modification-reject of 43: closed",
    "message modification-reject: refused 3",
    "message: refused 1",
    "message: refused 15, another discriminator",
    "message: refused 15, another type",
    "message: refused 15, a reply",
    "message: refused 16, under three octets",
    "message: refused 16, a mandatory part",
    "message: refused 16, an unlisted element",
    "message: refused 16, past the end",
    "message: refused 16, a second TFT",
    "message: bad line",
    "send C6",
    "send C7",
    "send CA",
    "send CB",
    "send CE",
    "assemble dedicated-request: wrote",
    "assemble dedicated-accept: wrote",
    "assemble dedicated-reject: wrote",
    "assemble modify-request: wrote",
    "assemble modify-accept: wrote",
    "assemble modify-reject: wrote",
    "assemble deactivate-request: wrote",
    "assemble deactivate-accept: wrote",
    "assemble modification-reject: wrote",
    "assemble dedicated-request: refused 9",
    "assemble dedicated-accept: refused 9",
    "assemble dedicated-reject: refused 9",
    "assemble modify-request: refused 9",
    "assemble modify-accept: refused 9",
    "assemble modify-reject: refused 9",
    "assemble deactivate-request: refused 9",
    "assemble deactivate-accept: refused 9",
    "assemble modification-reject: refused 9",
    "assemble: refused 15, an identity above 15",
    "assemble: refused 15, a link above 15",
    "assemble dedicated-request: refused 15, no TFT",
    "assemble dedicated-request: refused 15, a long TFT",
    "assemble modify-request: refused 15, a long TFT",
    "assemble dedicated-accept: refused 15, a TFT",
    "assemble dedicated-reject: refused 15, a TFT",
    "assemble modify-accept: refused 15, a TFT",
    "assemble modify-reject: refused 15, a TFT",
    "assemble deactivate-request: refused 15, a TFT",
    "assemble deactivate-accept: refused 15, a TFT",
    "assemble modification-reject: refused 15, a TFT",
    "assemble: bad line",
];

const INVALID_IDENTITY: u8 = 43;

/// What a line of messages is about, where it is one.
#[derive(Clone, PartialEq, Eq, Debug)]
pub enum About {
    Parsed(Result<String, Fault>),
    Handled(Result<String, Fault>),
    Assembled(Kind, Option<Unreadable>),
}

impl About {
    pub fn of(call: &Call, times: u32, table: &Table) -> Option<About> {
        match call {
            Call::Parse { octets } => Some(About::Parsed(read(octets.slice()).map(|m| name(&m)))),
            Call::Message { octets } => {
                let received = received(octets.slice());
                Some(About::Handled(received.map(|m| format!("{}{}", name(&m), effect(&m, times, table)))))
            }
            Call::Assemble { assembly } => {
                let message = assembly.message();
                Some(About::Assembled(message.kind, message.unreadable()))
            }
            _ => None,
        }
    }

    /// The form of a reply that has this one where it is not for a message.
    pub fn form(&self, form: &str) -> String {
        match (self, form) {
            (About::Parsed(Ok(name)), _) => format!("parse: {name}"),
            (About::Parsed(Err(fault)), _) => format!("parse: {form}, {}", why(*fault)),
            (About::Handled(_), "refused 1") => format!("message: {form}"),
            (About::Handled(_), "refused 3") => format!("message modification-reject: {form}"),
            (About::Handled(Ok(_)), "release" | "re-attach") => format!("message tft: {form}"),
            (About::Handled(Ok(name)), "reject 43" | "reject 47") => {
                format!("message {}: {form}", bare(name))
            }
            (About::Handled(Ok(name)), _) => format!("message {name}: {form}"),
            (About::Handled(Err(fault)), _) => format!("message: {form}, {}", why(*fault)),
            (About::Assembled(kind, unreadable), _) => assembled(message_kind(*kind), form, *unreadable),
        }
    }
}

fn name(message: &Message) -> String {
    let tft = match message.tft {
        None => "",
        Some([]) => " tft -",
        Some(_) => " tft",
    };
    format!("{}{tft}", message_kind(message.kind))
}

/// Without what is not looked at before the bearer and the transaction are.
fn bare(name: &str) -> &str {
    let name = name.strip_suffix(" that closes").unwrap_or(name);
    name.strip_suffix(" -").unwrap_or(name)
}

/// What a message does that its reply doesn't tell. Repeated, it is done before the one time that is heard of.
fn effect(message: &Message, times: u32, table: &Table) -> &'static str {
    let open = table.bearer_of_transaction(message.transaction).is_some();
    match message.kind {
        Kind::ModifyRequest if message.tft.is_none() && open && times == 1 => " that closes",
        Kind::ModificationReject if message.number == INVALID_IDENTITY => " of 43",
        _ => "",
    }
}

fn why(fault: Fault) -> &'static str {
    match fault {
        Fault::UnderThreeOctets => "under three octets",
        Fault::Discriminator => "another discriminator",
        Fault::Type => "another type",
        Fault::Reply => "a reply",
        Fault::MandatoryPart => "a mandatory part",
        Fault::UnlistedElement => "an unlisted element",
        Fault::PastTheEnd => "past the end",
        Fault::SecondTft => "a second TFT",
    }
}

fn assembled(kind: &str, form: &str, unreadable: Option<Unreadable>) -> String {
    match unreadable {
        None => format!("assemble {kind}: {form}"),
        Some(Unreadable::Identity) => format!("assemble: {form}, an identity above 15"),
        Some(Unreadable::Number) => format!("assemble: {form}, a link above 15"),
        Some(Unreadable::LongTft) => format!("assemble {kind}: {form}, a long TFT"),
        Some(Unreadable::TftOfOtherKind) => format!("assemble {kind}: {form}, a TFT"),
        Some(Unreadable::NoTft) => format!("assemble {kind}: {form}, no TFT"),
    }
}

#[cfg(test)]
mod tests {
    use crate::forms::{played, Reply};

    fn forms(script: &str) -> Vec<String> {
        played(script.as_bytes()).1.iter().map(Reply::form).collect()
    }

    #[test]
    fn messages_read_are_told_apart_by_kind_and_tft() {
        assert_eq!(
            forms("parse 6200C9\nrepeat 2 parse 6200C936011F"),
            ["parse: modify-request", "parse: modify-request tft"]
        );
        assert_eq!(
            forms("parse 6200C5050000\nparse 6200C7FF"),
            ["parse: dedicated-request tft -", "parse: dedicated-reject"]
        );
        assert_eq!(forms("parse\nparse fed\nparse 6"), ["parse: bad line"; 3]);
    }

    #[test]
    fn refusals_are_told_apart_by_what_is_wrong() {
        let refused = |octets: &str| forms(&format!("parse {octets}"))[0].clone();
        assert_eq!(refused("6200"), "parse: refused 16, under three octets");
        assert_eq!(refused("6300C9"), "parse: refused 15, another discriminator");
        assert_eq!(refused("6200C8"), "parse: refused 15, another type");
        assert_eq!(refused("6200CB"), "parse: refused 16, a mandatory part");
        assert_eq!(refused("6200CA30"), "parse: refused 16, an unlisted element");
        assert_eq!(refused("6200CA27"), "parse: refused 16, past the end");
        assert_eq!(refused("6200C936003600"), "parse: refused 16, a second TFT");
        assert_eq!(forms("message 6200CB"), ["message: refused 15, a reply"]);
    }

    #[test]
    fn handled_messages_are_told_apart_by_kind_and_outcome() {
        let after = |lines: &str| forms(&format!("default 5\nstart 7 5\n{lines}"))[2..].to_vec();
        assert_eq!(
            after("message 6207C93600\nmessage 5200C9"),
            ["message modify-request tft: reject 43", "send CB", "message modify-request: accept", "send CA"]
        );
        assert_eq!(after("message 5207C9"), ["message modify-request that closes: accept", "send CA"]);
        assert_eq!(after("repeat 2 message 5207C9"), ["message modify-request: reject 47", "send CB"]);
        assert_eq!(after("message 5200C93600"), ["message modify-request tft -: reject 42 at 0", "send CB"]);
        assert_eq!(
            after("message 0207D76F\nmessage 0207D72B"),
            ["message modification-reject: closed", "message modification-reject: refused 3"]
        );
        assert_eq!(after("message 0207D72B"), ["message modification-reject of 43: closed"]);
        assert_eq!(after("force 9 idle 1\nmessage 62"), ["forced", "message: refused 1"]);
    }

    #[test]
    fn assembled_messages_are_told_apart_by_kind_and_refusal() {
        let assembled = |words: &str| forms(&format!("assemble {words}"))[0].clone();
        assert_eq!(assembled("modify-accept 6 0 0 none 3"), "assemble modify-accept: wrote");
        assert_eq!(assembled("modify-accept 6 0 0 none 2"), "assemble modify-accept: refused 9");
        assert_eq!(assembled("modify-accept 6 0 0 - 2"), "assemble modify-accept: refused 15, a TFT");
        assert_eq!(assembled("modify-accept 16 0 0 - 2"), "assemble: refused 15, an identity above 15");
        assert_eq!(assembled("modify-accept 6 0 1 none 3"), "assemble: bad line");
        assert_eq!(assembled("dedicated-request 6 0 16 - 9"), "assemble: refused 15, a link above 15");
        assert_eq!(
            assembled("dedicated-request 6 0 5 none 9"),
            "assemble dedicated-request: refused 15, no TFT"
        );
        let long = format!("modify-request 6 0 0 {} 512", "C0".repeat(256));
        assert_eq!(assembled(&long), "assemble modify-request: refused 15, a long TFT");
    }
}
