//! Held lists: what the rule gives found slowly, after every line of scripts; every entry that can be false; and what is refused then.

use std::collections::BTreeMap;

use second::calls::{
    activate_dedicated, activate_default, deactivate, modify, modify_without_tft, reject, start, Answer,
};
use second::filter::{Component, Filter, Header};
use second::generator::script;
use second::lines::LONGEST_LINE;
use second::list::{Entry, List};
use second::messages::handle;
use second::random::Random;
use second::route::{route, why, Route, Why};
use second::script::{asked, Asked, Call};
use second::session::Session;
use second::status;
use second::table::{identities, Role, Table};

/// What the lists have, by identity and position.
type Lists = BTreeMap<(u8, u8), Entry>;

/// "at each precedence its uplink filter of that precedence with the bearer, or nothing", for each default and each link; the higher bearer, then
/// the higher identifier, where there are two. A place without a component holds no filter.
fn by_the_rule(table: &Table) -> Lists {
    let mut lists = Lists::new();
    for (bearer, held) in table.numbered() {
        let default = match held.role {
            Role::Idle => continue,
            Role::Default => bearer,
            Role::Dedicated { link } => link,
        };
        for (identifier, filter) in held.row.iter().enumerate().filter(|_| (5..=15).contains(&default)) {
            if filter.components().next().is_some() && [0, 2, 3].contains(&filter.direction) {
                lists.insert((default, filter.precedence), Entry { bearer, identifier: identifier as u8 });
            }
        }
    }
    lists
}

fn held(table: &Table) -> Lists {
    let of = |identity: u8| {
        let entries = table.list(identity).unwrap().entries();
        entries.map(move |(position, entry)| ((identity, position), entry))
    };
    identities().flat_map(of).collect()
}

fn is_listed_by_the_rule(table: &Table) -> bool {
    held(table) == by_the_rule(table)
}

/// Every line of a script with the session after it, the table before it, and the reply.
fn follow(seed: u64, lines: u64, mut each: impl FnMut(&[u8], &Session, &Table, &str)) {
    let (mut session, mut reply) = (Session::default(), Vec::new());
    for (number, line) in script(seed, lines).split(|octet| *octet == b'\n').enumerate() {
        let line = line.strip_suffix(b"\r").unwrap_or(line);
        let before = session.table;
        reply.clear();
        session.do_line(number as u64, line, line.len() > LONGEST_LINE, &mut reply);
        each(line, &session, &before, &String::from_utf8_lossy(&reply));
    }
}

#[test]
fn lists_are_what_the_rule_gives_after_every_line_but_a_forced_entry() {
    for seed in 0..4 {
        let mut looked_at = 0;
        follow(seed, 6000, |line, session, before, reply| {
            let forced = matches!(asked(line), Asked::Call { call: Call::ForceEntry { .. }, .. });
            if session.table != *before && !forced {
                assert!(is_listed_by_the_rule(&session.table), "{} gave {reply}", line.escape_ascii());
                looked_at += 1;
            }
        });
        assert!(looked_at > 500, "{looked_at} changes");
    }
}

#[test]
fn a_false_list_is_refused_and_left_by_every_call() {
    let mut refused = 0;
    for seed in 10..16 {
        follow(seed, 6000, |line, session, before, reply| {
            if is_listed_by_the_rule(before) {
                return;
            }
            let Asked::Call { call, .. } = asked(line) else {
                return assert_eq!(session.table, *before);
            };
            assert!(!before.is_well_formed());
            match call {
                Call::Force { .. } | Call::Place { .. } | Call::ForceEntry { .. } => {}
                _ => assert_eq!(session.table, *before, "{}", line.escape_ascii()),
            }
            if is_call_on_the_table(&call) && !reply.starts_with("bad line") {
                assert_eq!(reply, "refused 1\n", "{}", line.escape_ascii());
                refused += 1;
            }
        });
    }
    assert!(refused > 300, "{refused} refusals");
}

fn is_call_on_the_table(call: &Call) -> bool {
    matches!(
        call,
        Call::Default { .. }
            | Call::Dedicated { .. }
            | Call::Modify { .. }
            | Call::Deactivate { .. }
            | Call::Start { .. }
            | Call::Reject { .. }
            | Call::Route { .. }
            | Call::Why { .. }
            | Call::Check
            | Call::Status { .. }
            | Call::Synchronise { .. }
            | Call::Compare { .. }
            | Call::Message { .. }
    )
}

/// UDP to a remote port, that port being the precedence.
fn entry(direction: u8, identifier: u8, precedence: u8) -> Vec<u8> {
    vec![direction << 4 | identifier, precedence, 5, 0x30, 17, 0x50, 0, precedence]
}

fn create(entries: &[Vec<u8>]) -> Vec<u8> {
    [vec![0x20 | entries.len() as u8], entries.concat()].concat()
}

fn packet(port: u16) -> Header {
    Header { version: 4, protocol: 17, remote_port: port, ..Header::default() }
}

/// Defaults 5, with filters of its own, and 8; 6 and 7 of the one, 9 of the other with precedences that the first has too; 10 to 15 idle.
fn table() -> Table {
    let mut table = Table::default();
    for default in [5, 8] {
        assert_eq!(activate_default(&mut table, default), Answer::Accept { bearer: default, follow_up: 0 });
    }
    let own = create(&[entry(3, 1, 30), entry(1, 2, 31), entry(2, 3, 255)]);
    let six = create(&[entry(3, 0, 10), entry(0, 15, 0), entry(1, 7, 77)]);
    let seven = create(&[entry(2, 4, 200)]);
    let nine = create(&[entry(3, 0, 10), entry(3, 1, 31)]);
    let calls = [
        modify(&mut table, 5, 0, &own),
        activate_dedicated(&mut table, 6, 5, 0, &six),
        activate_dedicated(&mut table, 7, 5, 0, &seven),
        activate_dedicated(&mut table, 9, 8, 0, &nine),
        start(&mut table, 60, 6),
    ];
    assert!(calls.iter().all(|answer| matches!(answer, Answer::Accept { .. } | Answer::Started(60))));
    table
}

fn listed(table: &Table, identity: u8) -> Vec<(u8, u8, u8)> {
    let entries = table.list(identity).unwrap().entries();
    entries.map(|(position, entry)| (position, entry.bearer, entry.identifier)).collect()
}

#[test]
fn uplink_filters_alone_are_listed_each_at_its_precedence() {
    let table = table();
    assert_eq!(listed(&table, 5), [(0, 6, 15), (10, 6, 0), (30, 5, 1), (200, 7, 4), (255, 5, 3)]);
    assert_eq!(listed(&table, 8), [(10, 9, 0), (31, 9, 1)]);
    for other in [6, 7, 9, 10, 11, 12, 13, 14, 15] {
        assert_eq!(listed(&table, other), []);
    }
}

#[test]
fn a_table_is_well_formed_with_no_other_list() {
    let right = table();
    let rule = by_the_rule(&right);
    let entries = identities().flat_map(|bearer| (0..16).map(move |identifier| Entry { bearer, identifier }));
    let entries: Vec<Option<Entry>> = entries.map(Some).chain([None]).collect();
    for identity in identities() {
        let mut table = right;
        for position in 0..=255 {
            let own = rule.get(&(identity, position)).copied();
            for entry in &entries {
                table.list_mut(identity).unwrap().set(position, *entry);
                assert_eq!(table.is_well_formed(), *entry == own, "{identity} {position} {entry:?}");
            }
            table.list_mut(identity).unwrap().set(position, own);
        }
        assert_eq!(table, right);
    }
}

/// Whole lists: none at all, another table's, and another connection's.
#[test]
fn lists_of_another_table_are_false() {
    let (right, mut other) = (table(), table());
    deactivate(&mut other, 7, 0);
    for identity in identities() {
        let mut mixed = right;
        *mixed.list_mut(identity).unwrap() = *other.list(identity).unwrap();
        assert_eq!(mixed.is_well_formed(), right.list(identity) == other.list(identity), "{identity}");
        *mixed.list_mut(identity).unwrap() = List::default();
        assert_eq!(mixed.is_well_formed(), listed(&right, identity).is_empty(), "{identity}");
        *mixed.list_mut(identity).unwrap() = *right.list(5).unwrap();
        assert_eq!(mixed.is_well_formed(), identity == 5, "{identity}");
    }
}

fn false_tables() -> Vec<Table> {
    let spoilt = |identity: u8, position: u8, entry: Option<Entry>| {
        let mut table = table();
        table.list_mut(identity).unwrap().set(position, entry);
        table
    };
    let six = Some(Entry { bearer: 6, identifier: 0 });
    let other = Some(Entry { bearer: 6, identifier: 1 });
    vec![
        spoilt(5, 10, None),
        spoilt(5, 10, other),
        spoilt(5, 11, six),
        spoilt(8, 10, six),
        spoilt(6, 10, six),
        spoilt(15, 10, six),
        spoilt(5, 31, Some(Entry { bearer: 5, identifier: 2 })),
    ]
}

/// Each would do something on a table that is well formed.
#[test]
fn calls_on_a_false_list_give_1_and_change_nothing() {
    let element = create(&[entry(3, 5, 99)]);
    let message = [vec![0x62, 0, 0xC9, 0x36, element.len() as u8], element.clone()].concat();
    let calls: Vec<Box<dyn Fn(&mut Table) -> Answer>> = vec![
        Box::new(|t| activate_default(t, 10)),
        Box::new(|t| activate_dedicated(t, 10, 5, 0, &element)),
        Box::new(|t| modify(t, 6, 60, &element)),
        Box::new(|t| modify_without_tft(t, 6, 60)),
        Box::new(|t| deactivate(t, 5, 0)),
        Box::new(|t| deactivate(t, 6, 60)),
        Box::new(|t| start(t, 61, 7)),
        Box::new(|t| reject(t, 60, 43)),
        Box::new(|t| handle(t, &message).answer),
        Box::new(|t| handle(t, &[0x52, 0, 0xCD, 0x24]).answer),
        Box::new(|t| handle(t, &[0x02, 60, 0xD7, 43]).answer),
        Box::new(|t| handle(t, &[]).answer),
    ];
    for spoilt in false_tables() {
        for call in &calls {
            let (mut table, mut right) = (spoilt, spoilt.listed_anew());
            assert_eq!(call(&mut table), Answer::Refused(1));
            assert_eq!(table, spoilt);
            assert_ne!(call(&mut right), Answer::Refused(1));
        }
        let (mut table, mut buffer) = (spoilt, [0xEE; 2]);
        assert_eq!(route(&table, 5, &packet(10)), Route::Refused(1));
        assert_eq!(why(&table, 5, &packet(10)), Why::Refused(1));
        assert_eq!((status::write(&table, &mut buffer), buffer), (Err(1), [0xEE; 2]));
        assert_eq!(status::compare(&table, &[0, 0]), Err(1));
        assert_eq!(status::synchronise(&mut table, &[0, 0]), Err(1));
        assert_eq!(table, spoilt);
        assert!(table.listed_anew().is_well_formed());
    }
}

/// The least precedence of all uplink filters that fit, by trying each of them.
fn slowly(table: &Table, default: u8, header: &Header) -> Why {
    let connection = identities().filter(|identity| {
        let role = table.bearer(*identity).unwrap().role;
        *identity == default || role == Role::Dedicated { link: default }
    });
    let row = |bearer: u8| table.bearer(bearer).unwrap().row;
    let filters = connection.flat_map(|bearer| {
        row(bearer).into_iter().enumerate().map(move |(i, filter)| (bearer, i as u8, filter))
    });
    let uplink: Vec<(u8, u8, Filter)> =
        filters.filter(|(_, _, f)| !f.is_nothing() && f.direction != 1).collect();
    let fitting = uplink.iter().filter(|(_, _, filter)| filter.fits(header));
    match fitting.min_by_key(|(_, _, filter)| filter.precedence) {
        Some((bearer, identifier, filter)) => Why::Filter {
            precedence: filter.precedence,
            entry: Entry { bearer: *bearer, identifier: *identifier },
        },
        None if uplink.iter().any(|(bearer, _, _)| *bearer == default) => Why::Discard,
        None => Why::Default(default),
    }
}

/// Headers that meet filters often: few values for each field.
fn any_header(random: &mut Random) -> Header {
    let mut address = [0; 16];
    address[..4].copy_from_slice(&random.pick(&[[192, 0, 2, 1], [198, 51, 100, 9], [0x20, 1, 0x0D, 0xB8]]));
    Header {
        version: random.pick(&[4, 6]),
        address,
        protocol: random.pick(&[6, 17, 132, 50, 1]),
        local_port: random.pick(&[0, 80, 443, 65535]),
        remote_port: random.pick(&[0, 53, 443, 5060, 5061]),
        index: random.pick(&[0, 77]),
        class: random.pick(&[0, 184]),
        label: random.pick(&[0, 7]),
    }
}

#[test]
fn a_route_by_the_list_is_the_one_by_all_filters() {
    let mut random = Random::new(7);
    let mut by_filter = [0; 3];
    for seed in 20..24 {
        follow(seed, 3000, |_, session, before, _| {
            let table = &session.table;
            if *table == *before || !table.is_well_formed() {
                return;
            }
            for default in identities().filter(|i| table.bearer(*i).unwrap().role == Role::Default) {
                for _ in 0..4 {
                    let header = any_header(&mut random);
                    let (expected, given) = (slowly(table, default, &header), why(table, default, &header));
                    assert_eq!(given, expected, "{default} {header:?}");
                    let (route, nth) = match expected {
                        Why::Filter { entry, .. } => (Route::Bearer(entry.bearer), 0),
                        Why::Default(bearer) => (Route::Bearer(bearer), 1),
                        _ => (Route::Discard, 2),
                    };
                    assert_eq!(second::route::route(table, default, &header), route);
                    by_filter[nth] += 1;
                }
            }
        });
    }
    assert!(by_filter.iter().all(|times| *times > 300), "{by_filter:?}");
}

#[test]
fn why_says_filter_and_precedence() {
    let table = table();
    let by = |bearer, identifier, precedence| Why::Filter { precedence, entry: Entry { bearer, identifier } };
    assert_eq!(why(&table, 5, &packet(0)), by(6, 15, 0));
    assert_eq!(why(&table, 5, &packet(10)), by(6, 0, 10));
    assert_eq!(why(&table, 8, &packet(10)), by(9, 0, 10));
    assert_eq!(why(&table, 5, &packet(255)), by(5, 3, 255));
    // Downlink only.
    assert_eq!(why(&table, 5, &packet(77)), Why::Discard);
    assert_eq!(why(&table, 8, &packet(77)), Why::Default(8));
    assert_eq!(why(&table, 6, &packet(10)), Why::Refused(8));
    assert_eq!(why(&table, 5, &Header { version: 5, ..packet(10) }), Why::Refused(2));
    assert_eq!(why(&table, 6, &Header { version: 5, ..packet(10) }), Why::Refused(8));
}

/// Whatever a connection held before, the list after a create is that of the new set and of what is left of the others.
#[test]
fn conflicts_leave_their_position_to_the_new_filter_or_to_nothing() {
    for direction in 0..4 {
        let mut table = table();
        // Precedence 10 is held by 6, 200 by 7.
        let element = create(&[entry(direction, 9, 200), entry(direction, 2, 10)]);
        let answer = modify(&mut table, 7, 0, &element);
        assert_eq!(answer, Answer::Accept { bearer: 7, follow_up: 1 << 6 });
        let mut expected = vec![(0, 6, 15), (10, 7, 2), (30, 5, 1), (200, 7, 9), (255, 5, 3)];
        expected.retain(|(_, bearer, _)| *bearer != 7 || direction != 1);
        assert_eq!(listed(&table, 5), expected, "direction {direction}");
        assert!(table.is_well_formed());
        // Precedence 0 on 6 itself, under another identifier.
        let add = [vec![0x61], entry(direction, 3, 0)].concat();
        assert_eq!(modify(&mut table, 6, 0, &add), Answer::Accept { bearer: 6, follow_up: 1 << 6 });
        assert_eq!(
            listed(&table, 5).first(),
            Some(&(0, 6, 3)).filter(|_| direction != 1).or(expected.get(1))
        );
        assert!(table.is_well_formed());
    }
}

#[test]
fn by_hand_the_higher_bearer_then_the_higher_identifier_is_listed() {
    let filter = |direction| Filter::bare(9, direction).with(&Component::Protocol(17));
    let mut table = Table::default();
    table.bearer_mut(8).unwrap().role = Role::Default;
    for (bearer, role) in
        [(5, Role::Dedicated { link: 8 }), (11, Role::Dedicated { link: 8 }), (15, Role::Idle)]
    {
        table.bearer_mut(bearer).unwrap().role = role;
    }
    for (bearer, identifier, expected) in [
        (5, 3, (5, 3)),
        (5, 9, (5, 9)),
        (8, 0, (8, 0)),
        (11, 2, (11, 2)),
        (11, 1, (11, 2)),
        (15, 15, (11, 2)),
    ] {
        table.bearer_mut(bearer).unwrap().row[identifier] = filter(3);
        table.list_anew();
        assert_eq!(listed(&table, 8), [(9, expected.0, expected.1)]);
        assert!(is_listed_by_the_rule(&table));
    }
    for direction in [1, 4, 255] {
        table.bearer_mut(11).unwrap().row = [Filter::default(); 16];
        table.bearer_mut(11).unwrap().row[14] = filter(direction);
        table.list_anew();
        assert_eq!(listed(&table, 8), [(9, 8, 0)], "direction {direction}");
    }
}

#[test]
fn by_hand_a_place_without_a_component_is_not_listed() {
    let filter = Filter::bare(9, 3).with(&Component::Protocol(17));
    for (precedence, direction) in (0..=255).flat_map(|p| [0, 1, 2, 3, 4, 255].map(|d| (p, d))) {
        let mut table = Table::default();
        table.bearer_mut(8).unwrap().role = Role::Default;
        table.bearer_mut(11).unwrap().role = Role::Dedicated { link: 8 };
        table.bearer_mut(8).unwrap().row[1] = filter;
        table.bearer_mut(8).unwrap().row[2] = Filter::bare(precedence, direction);
        table.bearer_mut(11).unwrap().row[3] = Filter::bare(precedence, direction);
        table.list_anew();
        assert_eq!(listed(&table, 8), [(9, 8, 1)], "{precedence} {direction}");
        assert_eq!(table.is_well_formed(), (precedence, direction) == (0, 0));
    }
}

/// Whatever the link is: a default, idle, another dedicated bearer or itself.
#[test]
fn by_hand_a_dedicated_bearer_is_listed_under_its_link() {
    let filter = Filter::bare(9, 3).with(&Component::Protocol(17));
    for (link, role) in
        (0..=255).flat_map(|l| [Role::Idle, Role::Default, Role::Dedicated { link: 5 }].map(|role| (l, role)))
    {
        let mut table = Table::default();
        if let Some(bearer) = table.bearer_mut(link) {
            bearer.role = role;
        }
        table.bearer_mut(7).unwrap().role = Role::Dedicated { link };
        table.bearer_mut(7).unwrap().row[4] = filter;
        table.list_anew();
        for identity in identities() {
            let expected = if identity == link { vec![(9, 7, 4)] } else { Vec::new() };
            assert_eq!(listed(&table, identity), expected, "{link} {role:?}");
        }
        let well_formed = role == Role::Default && link != 7 && (5..=15).contains(&link);
        assert_eq!(table.is_well_formed(), well_formed, "{link} {role:?}");
        table.bearer_mut(7).unwrap().role = Role::Idle;
        table.list_anew();
        assert!(identities().all(|identity| listed(&table, identity).is_empty()));
    }
}
