//! The table of the program `calls`.

use reference::cases::calls::{answers, calls};
use reference::fault::{Fault, ALL};

#[test]
fn listed_calls_answer_as_worked_out_by_hand() {
    assert_eq!(answers(&calls(1, 0), Fault::None), include_str!("../../tests/calls.expected"));
}

/// But for faults of texts, and for one that only a count lent by the caller shows.
#[test]
fn every_fault_of_a_call_shows() {
    let all = calls(1, 1000);
    let right = answers(&all, Fault::None);
    let of_calls = ALL.iter().map(|(fault, _)| *fault).take_while(|fault| *fault != Fault::LeadingZeros);
    let missed: Vec<Fault> = of_calls.filter(|fault| answers(&all, *fault) == right).collect();
    assert_eq!(missed, [Fault::RefusalKeepsCount]);
}
