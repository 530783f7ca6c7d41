//! What is measured, at small sizes, with the second program in the place of the proved library.
use super::partial::{edit, edited, old_layers};
use super::sheets::all;
use super::{same, Desk};
use crate::picture::{picture, ONE};
use crate::plain::tests::Second;
use crate::plain::Plain;
use reference::fault::Fault;
use reference::sums;

#[test]
fn every_sheet_is_drawn_the_same() {
    for side in [64, 100] {
        let source = picture(side, ONE);
        let edited = edited(side, &source);
        for sheet in all(side) {
            let drawn = same::rendered(&Desk::new(side, &sheet.steps, &source), &Second(Fault::None), &Plain);
            assert!(drawn.is_ok(), "{}: {:?}", sheet.name, drawn.err());
            let old = old_layers(side, &sheet, &source, &edited, &Plain);
            let redrawn = same::redrawn(&old, edit(side), &Second(Fault::None), &Plain);
            assert!(redrawn.is_ok(), "{}: {:?}", sheet.name, redrawn.err());
        }
    }
}

#[test]
fn a_difference_is_found() {
    let source = picture(64, ONE);
    let edited = edited(64, &source);
    let faults = [
        Fault::BoxDown,
        Fault::CompositeHalf,
        Fault::ScratchLeft,
        Fault::MergeTopDown,
        Fault::TableDown,
        Fault::AbsentIsSrgb,
        Fault::CurveDown,
        Fault::KernelNotTurned,
        Fault::NegativeDivisorDown,
        Fault::WrapAsDuplicate,
    ];
    for fault in faults {
        let differs = |sheet: &super::sheets::Sheet| same::rendered(&Desk::new(64, &sheet.steps, &source), &Second(fault), &Plain).is_err();
        assert!(all(64).iter().any(differs));
    }
    let differs = |sheet: &super::sheets::Sheet| {
        let old = old_layers(64, sheet, &source, &edited, &Plain);
        same::redrawn(&old, edit(64), &Second(Fault::CountWithSource), &Plain).is_err()
    };
    assert!(all(64).iter().any(differs));
}

#[test]
fn shadow_and_glow_are_the_second_programs() {
    let sheets = all(sums::SIDE);
    let lines = |name: &str| &sheets.iter().find(|sheet| sheet.name == name).expect("a sheet").steps;
    assert_eq!(lines("shadow sheet"), sums::SHADOW);
    assert_eq!(lines("glow sheet"), sums::GLOW);
    assert_eq!(*lines("linear shadow sheet"), sums::in_linear_light(sums::SHADOW));
    assert_eq!(*lines("linear glow sheet"), sums::in_linear_light(sums::GLOW));
}
