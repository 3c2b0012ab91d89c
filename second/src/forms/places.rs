//! The forms of replies that say where an element broke.

use crate::element::{read, Fault};
use crate::messages::received;
use crate::portions::Portions;
use crate::script::Call;

pub const FORMS: [&str; 66] = [
    "element: cause 42 at 0, no octets",
    "element: cause 42 at 0, above 255 octets",
    "element: cause 42 at 0, the operation",
    "element: cause 42 at 0, the count",
    "element: cause 42 at the end, an entry",
    "element: cause 42 at the end, no parameter",
    "element: cause 42 at the end, a parameter",
    "element: cause 42 at what is left over",
    "element: cause 44 at the first filter",
    "element: cause 44 at a later filter",
    "element: cause 45 at the first filter",
    "element: cause 45 at a later filter",
    "element: cause 45 at a repeat",
    "rewrite: cause 42 at 0",
    "rewrite: cause 42 at the end",
    "rewrite: cause 42 at what is left over",
    "rewrite: cause 44 at the first filter",
    "rewrite: cause 44 at a later filter",
    "rewrite: cause 45 at the first filter",
    "rewrite: cause 45 at a later filter",
    "rewrite: cause 45 at a repeat",
    "modify: reject 42 at 0, no octets",
    "modify: reject 42 at 0, above 255 octets",
    "modify: reject 42 at 0, the operation",
    "modify: reject 42 at 0, the count",
    "modify: reject 42 at the end, an entry",
    "modify: reject 42 at the end, no parameter",
    "modify: reject 42 at the end, a parameter",
    "modify: reject 42 at what is left over",
    "modify: reject 44 at the first filter",
    "modify: reject 44 at a later filter",
    "modify: reject 45 at the first filter",
    "modify: reject 45 at a later filter",
    "modify: reject 45 at a repeat",
    "dedicated: reject 42 at 0",
    "dedicated: reject 42 at the end",
    "dedicated: reject 42 at what is left over",
    "dedicated: reject 44 at the first filter",
    "dedicated: reject 44 at a later filter",
    "dedicated: reject 45 at the first filter",
    "dedicated: reject 45 at a later filter",
    "dedicated: reject 45 at a repeat",
    "finish: cause 42 at 0",
    "finish: cause 42 at the end",
    "finish: cause 42 at what is left over",
    "finish: cause 44 at the first filter",
    "finish: cause 44 at a later filter",
    "finish: cause 45 at the first filter",
    "finish: cause 45 at a later filter",
    "finish: cause 45 at a repeat",
    "message dedicated-request tft: reject 42 at 0",
    "message dedicated-request tft: reject 42 at the end",
    "message dedicated-request tft: reject 42 at what is left over",
    "message dedicated-request tft: reject 44 at the first filter",
    "message dedicated-request tft: reject 44 at a later filter",
    "message dedicated-request tft: reject 45 at the first filter",
    "message dedicated-request tft: reject 45 at a later filter",
    "message dedicated-request tft: reject 45 at a repeat",
    "message modify-request tft: reject 42 at 0",
    "message modify-request tft: reject 42 at the end",
    "message modify-request tft: reject 42 at what is left over",
    "message modify-request tft: reject 44 at the first filter",
    "message modify-request tft: reject 44 at a later filter",
    "message modify-request tft: reject 45 at the first filter",
    "message modify-request tft: reject 45 at a later filter",
    "message modify-request tft: reject 45 at a repeat",
];

/// The lines with an element's HEX, whose other replies are counted together.
const WITH_HEX: [&str; 4] = ["element", "rewrite", "modify", "dedicated"];

/// Of these it is told, too, what is wrong at 0 and at the end.
const IN_DETAIL: [&str; 2] = ["element", "modify"];

/// What is wrong with the element that a line brings, and how many octets it has. The reply says where it broke; this tells what is there.
#[derive(Clone, Copy, PartialEq, Eq, Debug)]
pub struct Broken {
    fault: Fault,
    length: usize,
}

impl Broken {
    pub fn of(call: &Call, portions: &Portions) -> Option<Broken> {
        let value = value(call, portions)?;
        read(value).err().map(|refusal| Broken { fault: refusal.fault, length: value.len() })
    }

    /// The form of a reply of this form, of which the place is left as it stands there.
    pub fn form(&self, word: &str, form: &str) -> String {
        let Some((cause, place)) = form.split_once(" at ") else {
            return form.to_string();
        };
        let form = format!("{cause} at {}", self.name(cause, place));
        match WITH_HEX.contains(&word) {
            true if IN_DETAIL.contains(&word) => format!("{word}: {form}{}", self.detail()),
            true => format!("{word}: {form}"),
            false => form,
        }
    }

    /// By where the place is. What is wrong tells a repeat from bad coding alone, as both are 45.
    fn name<'a>(&self, cause: &str, place: &'a str) -> &'a str {
        let of_filter = !cause.ends_with("42");
        match place {
            "0" => "0",
            "1" if of_filter => "the first filter",
            _ if self.fault == Fault::Repeat => "a repeat",
            _ if of_filter => "a later filter",
            _ if place == self.length.to_string() => "the end",
            _ if self.fault == Fault::LeftOver => "what is left over",
            _ => place,
        }
    }

    fn detail(&self) -> &'static str {
        match self.fault {
            Fault::Length if self.length == 0 => ", no octets",
            Fault::Length => ", above 255 octets",
            Fault::Operation => ", the operation",
            Fault::Count => ", the count",
            Fault::EntryPastTheEnd => ", an entry",
            Fault::NoParameter => ", no parameter",
            Fault::ParameterPastTheEnd => ", a parameter",
            Fault::LeftOver | Fault::BadlyCoded | Fault::Unfit | Fault::Repeat => "",
        }
    }
}

/// The octets of the element that the reply of a line is about.
fn value<'a>(call: &'a Call, portions: &'a Portions) -> Option<&'a [u8]> {
    match call {
        Call::Element { value }
        | Call::Rewrite { value, .. }
        | Call::Modify { value, .. }
        | Call::Dedicated { value, .. } => Some(value.slice(portions)),
        Call::Finish => Some(portions.fed()),
        Call::Message { octets } => received(octets.slice()).ok()?.tft,
        _ => None,
    }
}

#[cfg(test)]
mod tests {
    use crate::forms::{played, Reply};

    fn forms(script: &str) -> Vec<String> {
        played(script.as_bytes()).1.iter().map(Reply::form).collect()
    }

    #[test]
    fn causes_are_told_apart_by_where_and_what() {
        let element = |hex: &str| forms(&format!("element {hex}"))[0].clone();
        assert_eq!(element("-"), "element: cause 42 at 0, no octets");
        assert_eq!(element(&"C0".repeat(256)), "element: cause 42 at 0, above 255 octets");
        assert_eq!(element("E0"), "element: cause 42 at 0, the operation");
        assert_eq!(element("C1"), "element: cause 42 at 0, the count");
        assert_eq!(element("21"), "element: cause 42 at the end, an entry");
        assert_eq!(element("D0"), "element: cause 42 at the end, no parameter");
        assert_eq!(element("D001"), "element: cause 42 at the end, a parameter");
        assert_eq!(element("C000"), "element: cause 42 at what is left over");
        assert_eq!(element("A10100"), "element: cause 42 at what is left over");
        assert_eq!(element("21310A054100020001"), "element: cause 44 at the first filter");
        assert_eq!(element("22310A023006320B054100020001"), "element: cause 44 at a later filter");
        assert_eq!(element("21310A00"), "element: cause 45 at the first filter");
        assert_eq!(element("22310A023006320B00"), "element: cause 45 at a later filter");
        assert_eq!(element("22310A023006310B023006"), "element: cause 45 at a repeat");
        assert_eq!(forms("element C0"), ["none", "end"]);
    }

    #[test]
    fn lines_with_places_are_told_apart() {
        let after = |lines: &str| forms(&format!("default 5\n{lines}"))[1..].to_vec();
        assert_eq!(
            after("rewrite C1 9\nrewrite C000 9"),
            ["rewrite: cause 42 at 0", "rewrite: cause 42 at what is left over"]
        );
        assert_eq!(
            after("modify 5 0 -\nrepeat 2 modify 5 0 21"),
            ["modify: reject 42 at 0, no octets", "modify: reject 42 at the end, an entry"]
        );
        assert_eq!(
            after("dedicated 6 5 0 21\ndedicated 6 5 0 C1\nmodify 6 0 21"),
            ["dedicated: reject 42 at the end", "reject 41", "reject 43"]
        );
        assert_eq!(
            after("force-fed 2 2 C000\nfinish\nelement fed\nmodify 5 0 fed\nmodify 6 0 fed")[1..],
            [
                "finish: cause 42 at what is left over",
                "element fed: cause",
                "modify fed: reject for the element",
                "modify fed: reject for the table"
            ]
        );
        assert_eq!(
            after("message 5200C93602C000\nmessage 6200C505000421310A00"),
            [
                "message modify-request tft: reject 42 at what is left over",
                "send CB",
                "message dedicated-request tft: reject 45 at the first filter",
                "send C7"
            ]
        );
        assert_eq!(after("announce 256"), ["announce: cause 42"]);
    }
}
