//! Scripts of the bench language that build real tables and go wrong in many small ways.

mod assemblies;
mod drafts;
mod echo;
mod elements;
mod headers;
mod lists;
mod messages;
mod places;
mod portions;
mod ports;
mod rubbish;
mod spoils;
mod status;

use crate::element::Kind;
use crate::filter::{Filter, Header, PLACES};
use crate::random::Random;
use crate::session::Session;
use crate::table::{connection_of, identities, Role, Table};
use elements::{component_words, hex};

pub use rubbish::{damaged, rubbish};

/// A script of that many lines, the same for the same seed.
pub fn script(seed: u64, lines: u64) -> Vec<u8> {
    let mut generator = Generator::new(seed);
    while generator.lines < lines {
        generator.action();
    }
    generator.script
}

/// Elements as scripts have them, for a table as scripts build it.
pub fn elements(seed: u64, count: usize) -> Vec<Vec<u8>> {
    let mut generator = Generator::new(seed);
    let mut next = || {
        generator.action();
        generator.any_element()
    };
    (0..count).map(|_| next()).collect()
}

/// The table and the portions are known at every line, since the script is done as it is written.
struct Generator {
    random: Random,
    session: Session,
    script: Vec<u8>,
    replies: Vec<u8>,
    lines: u64,
    repeat: Option<usize>,
    still_to_come: messages::StillToCome,
    places_to_come: Vec<places::Plan>,
    lists_to_come: lists::StillToCome,
    spoils_to_come: spoils::StillToCome,
}

impl Generator {
    fn new(seed: u64) -> Generator {
        Generator {
            random: Random::new(seed),
            session: Session::default(),
            script: Vec::new(),
            replies: Vec::new(),
            lines: 0,
            repeat: None,
            still_to_come: messages::StillToCome::default(),
            places_to_come: Vec::new(),
            lists_to_come: lists::StillToCome::default(),
            spoils_to_come: spoils::StillToCome::default(),
        }
    }

    fn action(&mut self) {
        if self.session.echo && self.random.one_in(20) {
            self.echo("off");
        }
        match self.random.weighted(&[58, 13, 5, 2, 3, 4, 2, 1, 1, 5, 17, 7, 6]) {
            0 => self.table_call(),
            1 => self.element_line(),
            2 => self.compose(),
            3 => self.by_hand(),
            4 => self.repeated(),
            5 => self.bad_line(),
            6 => self.passed_over(),
            7 => self.echo_stretch(),
            8 => self.look_or_reset(),
            9 => self.portions(),
            10 => self.messages(),
            11 => self.places(),
            _ => self.lists(),
        }
        self.mend();
        if !self.session.table.is_well_formed() {
            self.clear();
        }
    }

    /// Adds a line to the script, now and then written unusually, and does it.
    fn say(&mut self, line: &str) {
        let line = match self.repeat {
            Some(times) => format!("repeat {times} {line}"),
            None => line.to_string(),
        };
        let mut octets = line.into_bytes();
        if self.random.one_in(25) {
            octets = rubbish::unusual(&mut self.random, octets);
        }
        self.raw(&octets);
    }

    fn raw(&mut self, octets: &[u8]) {
        self.lines += 1;
        self.replies.clear();
        self.session.line(self.lines, octets, octets.len() > crate::lines::LONGEST_LINE, &mut self.replies);
        self.script.extend_from_slice(octets);
        // A CR is more to be looked for where the line is written.
        let crs_in = if self.session.echo { 5 } else { 40 };
        let ending: &[u8] = if self.random.one_in(crs_in) { b"\r\n" } else { b"\n" };
        self.script.extend_from_slice(ending);
    }

    fn table(&self) -> &Table {
        &self.session.table
    }

    fn bearers(&self, wanted: impl Fn(Role) -> bool) -> Vec<u8> {
        self.table().numbered().filter(|(_, b)| wanted(b.role)).map(|(identity, _)| identity).collect()
    }

    fn strange_identity(&mut self) -> u8 {
        let any = self.random.octet();
        self.random.pick(&[0, 1, 4, 5, 9, 15, 16, 17, 255, any])
    }

    fn idle(&mut self) -> u8 {
        let idle = self.bearers(|role| role == Role::Idle);
        self.one_of_or_strange(&idle, 12)
    }

    fn active(&mut self) -> u8 {
        let active = self.bearers(|role| role != Role::Idle);
        self.one_of_or_strange(&active, 15)
    }

    fn default(&mut self) -> u8 {
        let defaults = self.bearers(|role| role == Role::Default);
        self.one_of_or_strange(&defaults, 15)
    }

    fn one_of_or_strange(&mut self, wanted: &[u8], strange_in: usize) -> u8 {
        let strange = self.strange_identity();
        if self.random.one_in(strange_in) {
            strange
        } else {
            self.random.any(wanted).unwrap_or(strange)
        }
    }

    /// Mostly none, else one that is open, else any.
    fn transaction(&mut self) -> u8 {
        let any = self.random.octet();
        match self.random.below(20) {
            0..=13 => 0,
            14..=17 => self.open_transaction(),
            18 => self.random.pick(&[255, 254, 1]),
            _ => any,
        }
    }

    fn open_transaction(&mut self) -> u8 {
        let open: Vec<u8> = self.table().numbered().map(|(_, b)| b.transaction).filter(|t| *t != 0).collect();
        self.random.any(&open).unwrap_or(0)
    }

    /// Precedences are mostly few, so that they meet.
    fn precedence(&mut self) -> u8 {
        match self.random.below(12) {
            0 => self.random.octet(),
            1 => self.random.pick(&[0, 255]),
            _ => self.random.below(24) as u8,
        }
    }

    /// The identifiers of the filters that a bearer holds.
    fn held(&self, bearer: u8) -> Vec<u8> {
        let row = self.table().bearer(bearer).map_or([Filter::default(); PLACES], |b| b.row);
        (0..16u8).filter(|i| !row[usize::from(*i)].is_nothing()).collect()
    }

    fn table_call(&mut self) {
        let (more_defaults, more_status) = match self.bearers(|role| role == Role::Default).len() {
            0 => (60, 60),
            1 => (4, 6),
            _ => (1, 6),
        };
        match self.random.weighted(&[more_defaults, 18, 28, 2, 8, 3, 22, more_status]) {
            0 => self.activate_default(),
            1 => self.activate_dedicated(),
            2 => self.modify(),
            3 => self.deactivate(),
            4 => self.start(),
            5 => self.reject(),
            6 => self.route(),
            _ => self.status_line(),
        }
    }

    fn activate_default(&mut self) {
        let bearer = self.idle();
        self.say(&format!("default {bearer}"));
    }

    fn activate_dedicated(&mut self) {
        let (bearer, link, transaction) = (self.idle(), self.default(), self.transaction());
        let kind = if self.random.one_in(15) { self.kind() } else { Kind::Create };
        let octets = self.element_for(kind, link);
        self.say(&format!("dedicated {bearer} {link} {transaction} {}", hex(&octets)));
    }

    fn modify(&mut self) {
        let (bearer, transaction) = (self.active(), self.transaction());
        let kind = self.kind();
        let octets = self.element_for(kind, bearer);
        self.say(&format!("modify {bearer} {transaction} {}", hex(&octets)));
    }

    fn deactivate(&mut self) {
        let dedicated = self.bearers(|role| matches!(role, Role::Dedicated { .. }));
        let bearer =
            if self.random.one_in(4) { self.active() } else { self.one_of_or_strange(&dedicated, 8) };
        let transaction = self.transaction();
        self.say(&format!("deactivate {bearer} {transaction}"));
    }

    fn start(&mut self) {
        let bearer = self.active();
        let any = self.random.octet();
        let transaction = match self.random.below(10) {
            0 => self.random.pick(&[0, 255]),
            1 => self.random.pick(&[1, 254]),
            2..=4 => self.open_transaction(),
            _ => any,
        };
        self.say(&format!("start {transaction} {bearer}"));
    }

    fn reject(&mut self) {
        let any = self.random.octet();
        let transaction = if self.random.one_in(4) { any } else { self.open_transaction() };
        let cause = self.random.pick(&[43, 43, 41, 42, 44, 26, 46, 0, 255, any]);
        self.say(&format!("reject {transaction} {cause}"));
    }

    fn route(&mut self) {
        let default = self.default();
        let words = self.header_words(default);
        self.say(&format!("route {default} {words}"));
        if self.random.one_in(12) {
            self.say(&format!("why {default} {words}"));
        }
    }

    fn header_words(&mut self, default: u8) -> String {
        let header = self.header_near(default);
        headers::words(&mut self.random, &header)
    }

    /// That fits a filter of the connection, or misses it by little.
    fn header_near(&mut self, default: u8) -> Header {
        let fits = |(identity, role)| connection_of(identity, role) == Some(default);
        let of_connection = self.table().numbered().filter(|(i, b)| fits((*i, b.role)));
        let filters: Vec<Filter> =
            of_connection.flat_map(|(_, b)| b.row).filter(|filter| !filter.is_nothing()).collect();
        let close_to = self.random.any(&filters).unwrap_or_default();
        headers::close_to(&mut self.random, &close_to)
    }

    fn kind(&mut self) -> Kind {
        let position = self.random.weighted(&[3, 6, 4, 3, 1, 1]);
        [Kind::Create, Kind::Add, Kind::Replace, Kind::DeleteFilters, Kind::DeleteTft, Kind::None][position]
    }

    fn element_line(&mut self) {
        let (bearer, kind) = (self.active(), self.kind());
        let octets = self.element_for(kind, bearer);
        if self.random.one_in(3) {
            let size = self.size_near(octets.len());
            self.say(&format!("rewrite {} {size}", hex(&octets)));
        } else {
            self.say(&format!("element {}", hex(&octets)));
        }
    }

    fn size_near(&mut self, length: usize) -> usize {
        let any = self.random.below(513);
        let near = [length.saturating_sub(1), length, length, length + 1, length + 5, 0, any];
        self.random.pick(&near).min(512)
    }

    fn look_or_reset(&mut self) {
        match self.random.below(5) {
            0 | 1 => self.say("check"),
            2 | 3 => self.say("show"),
            _ => self.deactivate_all(),
        }
    }

    fn deactivate_all(&mut self) {
        for bearer in self.bearers(|role| role == Role::Default) {
            self.say(&format!("deactivate {bearer} 0"));
        }
    }

    fn compose(&mut self) {
        let kind = self.kind();
        let kind = if self.random.one_in(4) { Kind::Create } else { kind };
        self.say(&format!("compose {}", crate::text::kind(kind)));
        let brings = matches!(kind, Kind::Create | Kind::Add | Kind::Replace);
        match self.random.below(if brings { 8 } else { 3 }) {
            0 => self.compose_anything(),
            1 => self.compose_identifiers(kind),
            2 if brings => self.compose_long(),
            _ if brings => self.compose_filters(),
            _ => self.compose_identifiers(kind),
        }
        self.emit();
        if self.random.one_in(2) {
            self.emit();
        }
    }

    fn compose_anything(&mut self) {
        for _ in 0..self.random.below(4) {
            if self.random.one_in(3) {
                self.identifier();
            } else {
                let (place, precedence) = (self.random.below(16) as u8, self.precedence());
                self.filter_line(place, precedence);
            }
        }
    }

    fn compose_identifiers(&mut self, kind: Kind) {
        let most = if self.random.one_in(6) { 40 } else { 5 };
        let count =
            if kind == Kind::DeleteFilters { 1 + self.random.below(most) } else { self.random.below(2) };
        for _ in 0..count {
            self.identifier();
        }
    }

    /// Mostly sound: places and precedences rise together.
    fn compose_filters(&mut self) {
        let count = if self.random.one_in(6) { 16 } else { 1 + self.random.below(5) };
        let first = self.random.below(17 - count) as u8;
        for i in 0..count as u8 {
            let same = self.random.one_in(60);
            self.filter_line(first + i, if same { 3 } else { 10 + i });
        }
    }

    /// Around 255 octets: filters with IPv6 addresses.
    fn compose_long(&mut self) {
        for i in 0..6 + self.random.below(3) as u8 {
            let components = elements::with_remote6(&mut self.random);
            self.say(&format!("filter {i} {} 3 {}", 100 + i, component_words(&components)));
        }
    }

    fn identifier(&mut self) {
        let identifier = self.random.below(16);
        self.say(&format!("identifier {identifier}"));
    }

    fn filter_line(&mut self, place: u8, precedence: u8) {
        let words = self.filter_words(precedence);
        self.say(&format!("filter {place} {words}"));
    }

    /// Precedence, direction and components, mostly of a sound filter.
    fn filter_words(&mut self, precedence: u8) -> String {
        let direction = if self.random.one_in(25) { self.random.octet() } else { self.random.below(4) as u8 };
        let components = match self.random.below(40) {
            0 | 1 => Vec::new(),
            2..=5 => elements::any_components(&mut self.random),
            6 => elements::unfit_components(&mut self.random),
            7 => ports::unfit_ports(&mut self.random),
            _ => elements::sound_components(&mut self.random),
        };
        format!("{precedence} {direction} {}", component_words(&components)).trim_end().to_string()
    }

    fn emit(&mut self) {
        let mut buffer = [0; 512];
        let composed = self.session.composed;
        let length = composed.map_or(0, |o| crate::element::write(&o, &mut buffer).unwrap_or(200));
        let size = self.size_near(length);
        self.say(&format!("emit {size}"));
    }

    fn repeated(&mut self) {
        self.repeat = Some(1 + self.random.below(12));
        match self.random.below(9) {
            0..=2 => self.table_call(),
            3 => self.element_line(),
            4 => self.emit(),
            5 => self.portion_call(),
            6 => self.message_call(),
            7 => self.list_call(),
            _ => self.look_or_reset(),
        }
        self.repeat = None;
    }

    fn bad_line(&mut self) {
        let line = rubbish::bad_line(&mut self.random);
        self.raw(&line);
    }

    fn passed_over(&mut self) {
        let line = rubbish::passed_over(&mut self.random);
        self.raw(&line);
    }

    /// Puts something into the table by hand, makes a few calls, and puts back what stood there if it broke the table.
    fn by_hand(&mut self) {
        let before = self.session.table;
        for _ in 0..1 + self.random.below(2) {
            if self.random.one_in(2) {
                self.force();
            } else {
                self.place();
            }
        }
        if self.random.one_in(3) {
            self.list_any();
        }
        if self.table().is_well_formed() {
            return;
        }
        self.say("check");
        for _ in 0..self.random.below(4) {
            self.table_call();
        }
        for _ in 0..self.random.below(3) {
            self.status_line();
        }
        if !self.random.one_in(3) {
            self.use_fed_on_table();
        }
        for _ in 0..self.random.below(3) {
            self.message_line();
        }
        if self.random.one_in(2) {
            self.say("show");
        }
        self.put_back(&before);
    }

    fn force(&mut self) {
        let bearer = 5 + self.random.below(11) as u8;
        let transaction = self.transaction();
        let link = self.default();
        match self.random.below(4) {
            0 => self.say(&format!("force {bearer} idle {transaction}")),
            1 => self.say(&format!("force {bearer} default {transaction}")),
            _ => self.say(&format!("force {bearer} dedicated {link} {transaction}")),
        }
    }

    fn place(&mut self) {
        let bearer = 5 + self.random.below(11) as u8;
        let active = self.bearers(|role| role != Role::Idle);
        let bearer = if self.random.one_in(4) { bearer } else { self.random.any(&active).unwrap_or(bearer) };
        let (place, precedence) = (self.random.below(16), self.precedence());
        let words =
            if self.random.one_in(2) { self.ported_filter_words() } else { self.filter_words(precedence) };
        self.say(&format!("place {bearer} {place} {words}"));
    }

    /// Of a filter with ports that spoils a table, if at all, by its ports, as no other is likely to have its precedence.
    fn ported_filter_words(&mut self) -> String {
        let components = if self.random.one_in(2) {
            ports::unfit_ports(&mut self.random)
        } else {
            ports::fit_ports(&mut self.random)
        };
        format!("{} {} {}", self.random.octet(), self.random.below(4), component_words(&components))
    }

    fn put_back(&mut self, before: &Table) {
        for bearer in identities() {
            let (was, is) = (*before.bearer(bearer).unwrap(), *self.table().bearer(bearer).unwrap());
            if (was.role, was.transaction) != (is.role, is.transaction) {
                self.force_to(bearer, was.role, was.transaction);
            }
            for place in (0..16).filter(|place| was.row[*place] != is.row[*place]) {
                self.place_to(bearer, place, &was.row[place]);
            }
        }
    }

    fn force_to(&mut self, bearer: u8, role: Role, transaction: u8) {
        let role = match role {
            Role::Idle => "idle".to_string(),
            Role::Default => "default".to_string(),
            Role::Dedicated { link } => format!("dedicated {link}"),
        };
        self.say(&format!("force {bearer} {role} {transaction}"));
    }

    fn place_to(&mut self, bearer: u8, place: usize, filter: &Filter) {
        let components: Vec<_> = filter.components().collect();
        let words = component_words(&components);
        let line = format!("place {bearer} {place} {} {} {words}", filter.precedence, filter.direction);
        self.say(line.trim_end());
    }

    /// Empties the table by hand.
    fn clear(&mut self) {
        while !self.table().is_well_formed() {
            self.put_back(&Table::default());
            self.mend();
        }
    }
}
