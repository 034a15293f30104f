//! The numbers, over all cases.

use super::Refusal;
use crate::ring::Reason;

/// The case behind each. No arm stands for the rest, so a new case has to find its place here.
fn behind(refusal: Refusal) -> Option<Refusal> {
    match refusal {
        Refusal::Short => Some(Refusal::Magic),
        Refusal::Magic => Some(Refusal::Version),
        Refusal::Version => Some(Refusal::Layout),
        Refusal::Layout => Some(Refusal::Length),
        Refusal::Length => Some(Refusal::Position),
        Refusal::Position => Some(Refusal::Writer),
        Refusal::Writer => Some(Refusal::Spent),
        Refusal::Spent => Some(Refusal::Far),
        Refusal::Far => Some(Refusal::Damaged { at: 12, why: Reason::FewBytesLeft }),
        Refusal::Damaged { .. } => Some(Refusal::Disagree),
        Refusal::Disagree => Some(Refusal::Reader),
        Refusal::Reader => Some(Refusal::Out),
        Refusal::Out => Some(Refusal::Generation),
        Refusal::Generation => Some(Refusal::Size),
        Refusal::Size => None,
    }
}

fn numbers() -> Vec<u8> {
    let all = std::iter::successors(Some(Refusal::Short), |refusal| behind(*refusal));
    all.map(Refusal::number).collect()
}

#[test]
fn none_bears_the_number_12() {
    assert!(!numbers().contains(&12));
}

#[test]
fn different_refusals_bear_different_numbers() {
    let numbers = numbers();
    for (index, number) in numbers.iter().enumerate() {
        assert!(!numbers[..index].contains(number), "{number} twice");
    }
}

/// No number has moved into the place that 12 left.
#[test]
fn the_others_bear_the_numbers_of_the_paper() {
    assert_eq!(numbers(), (1..=11).chain(13..=16).collect::<Vec<u8>>());
}
