//! Step records that no text is read into, and the answers that they get.
#![allow(dead_code)]

use super::{region, steps};
use reference::check::Answer;
use reference::convolve::{Convolution, Edge};
use reference::fault::Fault;
use reference::number::Number;
use reference::render::{render, Sheet};
use reference::step::{Input, Kind, Step};
use reference::transfer::Transfer::{self, Discrete, Identity, Linear, Table};

pub fn one_step() -> Step {
    steps("lumalpha 0 0 1 1 src\n").remove(0)
}

/// A step of component transfer, its numbers all 0.5 and as many as it says, 17 a channel at most.
fn curve(transfers: [Transfer; 4]) -> Step {
    let count = transfers.iter().map(|transfer| transfer.numbers().1.min(17)).sum();
    let numbers = vec![Number::Decimal(5_000); count];
    Step { kind: Kind::Curve(transfers), inputs: vec![Input::Source], numbers, ..one_step() }
}

/// Records of component transfer as step 1, and the number and place of what is said of each.
pub fn curves(fault: Fault) -> Vec<(Answer, Answer)> {
    let red = |red: Transfer| curve([red, Identity, Identity, Identity]);
    let first = |record: Step, number: u32| {
        let numbers = [&[Number::Single(number)], &record.numbers[1..]].concat();
        Step { numbers, ..record }
    };
    let right = [red(Table(1)), red(Table(16)), curve([Discrete(1), Discrete(16), Linear, Table(16)])];
    let counts = [
        red(Table(0)),
        red(Table(17)),
        red(Discrete(0)),
        red(Discrete(17)),
        curve([Identity, Discrete(0), Identity, Identity]),
        curve([Linear, Table(16), Table(17), Identity]),
        curve([Identity, Identity, Identity, Table(0)]),
        // A count that nobody may walk.
        red(Table(1_000_000_000_000)),
        red(Table(usize::MAX)),
        // Before any number of the step, also of a channel before it, and before the region.
        first(red(Table(17)), 0x7fc0_0000),
        first(curve([Linear, Identity, Identity, Discrete(17)]), 0x7fc0_0000),
        Step { region: region(1, 0, 1, 1), ..red(Discrete(17)) },
    ];
    let input = Step { inputs: vec![Input::Layer(1)], ..red(Table(0)) };
    let below = first(red(Table(2)), 0xbf80_0000);
    let answer = |record: &Step| {
        let steps = [one_step(), record.clone()];
        render(Sheet::whole(1, 1, &steps), &[0; 4], &mut [0; 8], &mut [0; 8], fault)
    };
    let all = right.iter().map(|record| (answer(record), Answer::DONE));
    let all = all.chain(counts.iter().map(|record| (answer(record), Answer::refused(16, 1))));
    all.chain([(answer(&input), Answer::refused(7, 1)), (answer(&below), Answer::refused(9, 1))]).collect()
}

/// A step of convolution, its numbers all 0.5: as many as it says, 40 at most.
fn convolution(columns: usize, rows: usize, column: usize, row: usize) -> Step {
    let shape = Convolution { columns, rows, divided: true, column, row, preserve: false, edge: Edge::Wrap };
    let numbers = vec![Number::Decimal(5_000); shape.numbers().min(40)];
    Step { kind: Kind::Convolve(shape), inputs: vec![Input::Source], numbers, ..one_step() }
}

/// Records of convolution as step 1, and the number and place of what is said of each.
pub fn convolutions(fault: Fault) -> Vec<(Answer, Answer)> {
    let first = |record: Step, number: u32| {
        let numbers = [&[Number::Single(number)], &record.numbers[1..]].concat();
        Step { numbers, ..record }
    };
    let most = usize::MAX;
    let right = [convolution(1, 1, 0, 0), convolution(5, 5, 4, 4), convolution(5, 1, 4, 0), convolution(1, 5, 0, 4)];
    let kernels = [
        convolution(0, 1, 0, 0),
        convolution(1, 0, 0, 0),
        convolution(0, 0, 0, 0),
        convolution(6, 1, 0, 0),
        convolution(1, 6, 0, 0),
        convolution(6, 6, 5, 5),
        // Orders that nobody may walk, and whose product is no count.
        convolution(most, 1, 0, 0),
        convolution(most, most, 0, 0),
        convolution(1 << 32, 1 << 32, 0, 0),
        convolution(5, 5, 5, 0),
        convolution(5, 5, 0, 5),
        convolution(5, 5, most, 0),
        // Before any number of the step, and before the region.
        first(convolution(6, 1, 0, 0), 0x7fc0_0000),
        first(convolution(3, 3, 3, 0), 0x7fc0_0000),
        Step { region: region(1, 0, 1, 1), ..convolution(1, 6, 0, 0) },
    ];
    let input = Step { inputs: vec![Input::Layer(1)], ..convolution(6, 6, 6, 6) };
    let number = first(convolution(3, 3, 2, 2), 0x7fc0_0000);
    let answer = |record: &Step| {
        let steps = [one_step(), record.clone()];
        render(Sheet::whole(1, 1, &steps), &[0; 4], &mut [0; 8], &mut [0; 8], fault)
    };
    let all = right.iter().map(|record| (answer(record), Answer::DONE));
    let all = all.chain(kernels.iter().map(|record| (answer(record), Answer::refused(17, 1))));
    all.chain([(answer(&input), Answer::refused(7, 1)), (answer(&number), Answer::refused(8, 1))]).collect()
}
