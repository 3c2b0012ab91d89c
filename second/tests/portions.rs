//! However an element was divided, it reads as the whole.

use second::element::{self, Reading, LONGEST_VALUE};
use second::generator::elements;
use second::portions::{Portions, FINISHED_EARLY, NOT_TAKEN};
use second::random::Random;

fn announced(length: usize) -> Portions {
    let mut state = Portions::default();
    assert_eq!(state.announce(length as u16), Ok(()));
    state
}

fn fed(mut state: Portions, portion: &[u8]) -> Portions {
    let before = state.fed().len();
    assert_eq!(state.feed(portion).map(usize::from), Ok(before + portion.len()));
    state
}

/// What is left of the state and what it finishes with are those of the whole element.
fn is_whole(state: &Portions, element: &[u8]) {
    assert_eq!(*state, fed(announced(element.len()), element));
    assert_eq!(state.finish(), Ok(element::read(element)), "{element:02X?}");
}

/// Elements of the generator that can be announced, and edges of the length.
fn many_elements() -> Vec<Vec<u8>> {
    let mut elements = elements(14, 400);
    elements.retain(|element| element.len() <= LONGEST_VALUE);
    elements.extend([0, 1, 2, 254, 255].map(|length| vec![0xC0; length]));
    elements.extend([251, 252].map(|length| [vec![0xD0, 1, length], vec![7; length.into()]].concat()));
    elements
}

#[test]
fn elements_are_of_every_outcome() {
    let elements = many_elements();
    let outcomes = |wanted: fn(&Reading) -> bool| {
        elements.iter().filter(|element| wanted(&element::read(element))).count()
    };
    assert!(outcomes(|read| read.is_ok()) > 100);
    assert!(outcomes(|read| read.is_err_and(|refusal| refusal.cause() == 42)) > 10);
    assert!(outcomes(|read| read.is_err_and(|refusal| refusal.cause() == 44)) > 10);
    assert!(outcomes(|read| read.is_err_and(|refusal| refusal.cause() == 45)) > 10);
    assert!(outcomes(|read| read.is_err_and(|refusal| refusal.place > 1)) > 10);
    assert!(elements.iter().filter(|element| element.len() == LONGEST_VALUE).count() > 5);
}

#[test]
fn every_cut_in_two_reads_as_the_whole() {
    for element in many_elements() {
        for cut in 0..=element.len() {
            let (first, second) = element.split_at(cut);
            is_whole(&fed(fed(announced(element.len()), first), second), &element);
        }
    }
}

#[test]
fn octet_by_octet_reads_as_the_whole() {
    for element in many_elements() {
        let state = element.chunks(1).fold(announced(element.len()), fed);
        is_whole(&state, &element);
    }
}

#[test]
fn short_elements_read_as_the_whole_however_cut() {
    for number in 0..=u16::MAX {
        let [first, second] = number.to_be_bytes();
        is_whole(&fed(fed(announced(2), &[first]), &[second]), &[first, second]);
        is_whole(&fed(announced(1), &[first]), &[first]);
    }
}

/// A portion too long, by little or by much, and a finish before its time leave the state to the octet.
fn refused_calls_leave(state: &mut Portions, random: &mut Random) {
    let (before, left) = (*state, state.announced() - state.fed().len());
    let too_many = left + random.pick(&[1, 2, 255, 512]);
    let portion: Vec<u8> = (0..too_many).map(|_| random.octet()).collect();
    assert_eq!(state.feed(&portion), Err(NOT_TAKEN));
    if left > 0 {
        assert_eq!(state.finish(), Err(FINISHED_EARLY));
    }
    assert_eq!(*state, before);
}

#[test]
fn random_cuts_with_refused_calls_between_read_as_the_whole() {
    let mut random = Random::new(2);
    for element in many_elements() {
        for longest in [2, 5, 60, 256] {
            let (mut state, mut rest) = (announced(element.len()), element.as_slice());
            while !rest.is_empty() {
                // None at all is a portion too.
                let (portion, after) = rest.split_at(random.below(longest).min(rest.len()));
                refused_calls_leave(&mut state, &mut random);
                state = fed(state, portion);
                rest = after;
            }
            refused_calls_leave(&mut state, &mut random);
            is_whole(&fed(state, &[]), &element);
        }
    }
}

#[test]
fn finishing_twice_is_finishing_once() {
    for element in many_elements() {
        let state = fed(announced(element.len()), &element);
        assert_eq!(state.finish(), state.finish());
        is_whole(&state, &element);
    }
}
