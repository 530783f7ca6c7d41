//! Component transfer: every byte of every kind in whole numbers and in fractions, ends, halves, alpha, spaces, redraws.

mod common;

use common::*;
use reference::cases::picture;
use reference::check::Answer;
use reference::fault::Fault;
use reference::random::Random;
use reference::transfer::Transfer::{self, Discrete, Identity, Linear, Table};
use reference::transfer::{curve, maps, remapped};

const UNIT: i64 = 65_536;

/// All 256 bytes of a channel.
fn map(transfer: Transfer, units: &[i64]) -> Vec<i64> {
    (0..=255).map(|c| remapped(transfer, units, c, Fault::None).into()).collect()
}

/// The same by the whole-number forms of RULES 5.13.
fn in_whole_numbers(transfer: Transfer, v: &[i64]) -> Vec<i64> {
    let last = v.len() as i64 - 1;
    let at = |k: i64| v[k.min(last) as usize];
    let channel = |c: i64| match transfer {
        Identity => c,
        Table(_) => {
            let (k, t) = (c * last / 255, c * last % 255);
            ((255 - t) * at(k) + t * at(k + 1) + 32_768).div_euclid(65_536)
        }
        Discrete(_) => (255 * at(c * (last + 1) / 255) + 32_768).div_euclid(65_536),
        Linear => (v[0] * c + 255 * v[1] + 32_768).div_euclid(65_536).clamp(0, 255),
    };
    (0..256).map(channel).collect()
}

fn units(random: &mut Random) -> i64 {
    let any = random.within(0, UNIT);
    let edge = (UNIT * random.within(0, 254) + UNIT / 2) / 255 + random.within(0, 1);
    random.pick(&[0, 1, UNIT / 2, UNIT - 1, UNIT, any, any, edge])
}

/// Lists of 1, 2, 16 and every other number of entries.
#[test]
fn every_byte_of_every_list() {
    let mut random = Random::new(21);
    for n in 1..=16 {
        for _ in 0..100 {
            let v: Vec<i64> = (0..n).map(|_| units(&mut random)).collect();
            for transfer in [Table(n), Discrete(n)] {
                assert_eq!(map(transfer, &v), in_whole_numbers(transfer, &v), "{transfer:?} {v:?}");
            }
        }
    }
}

#[test]
fn every_byte_of_every_line() {
    let mut random = Random::new(22);
    let most = 256 * UNIT;
    for _ in 0..1_000 {
        let any = |random: &mut Random| match random.below(5) {
            0 => random.pick(&[-most, most, 1 - most, most - 1]),
            1 => random.within(-8, 8) * UNIT / 2,
            2 => random.within(-most, most),
            _ => random.within(-3 * UNIT, 3 * UNIT),
        };
        let v = [any(&mut random), any(&mut random)];
        assert_eq!(map(Linear, &v), in_whole_numbers(Linear, &v), "{v:?}");
    }
    assert_eq!(map(Identity, &[]), (0..256).collect::<Vec<i64>>());
    assert_eq!(map(Linear, &[UNIT, 0]), map(Identity, &[]));
}

/// "A table of one entry is constant", a discrete one too; 255 · 0.5 is 127.5.
#[test]
fn one_entry() {
    for (units, byte) in [(0, 0), (UNIT, 255), (UNIT / 2, 128), (UNIT / 2 - 1, 127), (128, 0), (129, 1)] {
        for transfer in [Table(1), Discrete(1)] {
            assert_eq!(map(transfer, &[units]), vec![byte; 256]);
        }
    }
}

/// Two entries: the ends, and 127.5 between them, which no byte is.
#[test]
fn two_entries() {
    assert_eq!(map(Table(2), &[0, UNIT]), map(Identity, &[]));
    assert_eq!(map(Table(2), &[UNIT, 0]), (0..256).rev().collect::<Vec<i64>>());
    let steps = map(Discrete(2), &[0, UNIT]);
    assert_eq!(steps, [vec![0; 128], vec![255; 128]].concat());
    // 64 and 191 at the ends, 0.25 and 0.75; in between c/2 + 63.75: halves at none, 64.25 for c of 1.
    let table = map(Table(2), &[UNIT / 4, 3 * UNIT / 4]);
    assert_eq!([table[0], table[1], table[128], table[255]], [64, 64, 128, 191]);
}

/// Three entries 0, 1, 0.5. At 64 a table's part is 0 and 128/255 of it is past: 128. At 128 it is 1 and 1/255: 254.5.
#[test]
fn three_entries() {
    let v = [0, UNIT, UNIT / 2];
    let (table, steps) = (map(Table(3), &v), map(Discrete(3), &v));
    assert_eq!([table[0], table[64], table[127], table[128], table[255]], [0, 128, 254, 255, 128]);
    // A third of 255 is 85: its part begins there.
    assert_eq!([steps[84], steps[85], steps[169], steps[170], steps[255]], [0, 255, 255, 128, 128]);
}

/// Sixteen entries k/15: a table is the identity; steps of 17 of 15.9375 bytes each.
#[test]
fn sixteen_entries() {
    let v: Vec<i64> = (0..16).map(|k| (2 * k * UNIT + 15) / 30).collect();
    assert_eq!(map(Table(16), &v), map(Identity, &[]));
    let steps: Vec<i64> = (0..256).map(|c| 17 * (c * 16 / 255).min(15)).collect();
    assert_eq!(map(Discrete(16), &v), steps);
}

/// Slope and intercept at their limits, and halves, which go up also where they come from below.
#[test]
fn lines_at_their_limits() {
    let most = 256 * UNIT;
    // 256·c − 65,280 is 0 at 255 and below everywhere else; turned round it is 65,280 less 256·c.
    assert_eq!(map(Linear, &[most, -most]), vec![0; 256]);
    assert_eq!(map(Linear, &[-most, most])[254..], [255, 0]);
    assert_eq!(map(Linear, &[most, 0])[..2], [0, 255]);
    assert_eq!(map(Linear, &[-most, 0]), vec![0; 256]);
    assert_eq!(map(Linear, &[0, -most]), vec![0; 256]);
    assert_eq!(map(Linear, &[0, most]), vec![255; 256]);
    // c/2: 0, 0.5, 1, 1.5; −c/2 + 127.5: 127.5, 127, .., 0.5, 0.
    assert_eq!(map(Linear, &[UNIT / 2, 0])[..4], [0, 1, 1, 2]);
    let falling = map(Linear, &[-UNIT / 2, UNIT / 2]);
    assert_eq!([falling[0], falling[1], falling[2], falling[254], falling[255]], [128, 127, 127, 1, 0]);
    // −0.5 goes up to 0, and is limited no more than 0 is.
    assert_eq!(map(Linear, &[-UNIT / 2, 0])[..3], [0, 0, 0]);
}

/// Numbers come in the order of R, G, B, A.
#[test]
fn each_channel_has_its_own_numbers() {
    let units = [UNIT, 0, UNIT / 2, UNIT, UNIT / 2, -UNIT, UNIT];
    let all = maps([Discrete(2), Table(1), Linear, Linear], &[&units[..3], &units[3..]].concat(), Fault::None);
    assert_eq!(all[0][0], 255);
    assert_eq!(all[0][255], 0);
    assert_eq!(all[1], [128; 256]);
    assert_eq!([all[2][0], all[2][10]], [128, 138]);
    assert_eq!([all[3][0], all[3][10]], [255, 245]);
}

/// Unpremultiplied, mapped, premultiplied by the new alpha: 40 and 20 at 80 are 128 and 64 straight.
#[test]
fn pixels_by_hand() {
    let line = "curve 0 0 1 1 src linear -1 1 identity discrete 1 1 linear 2 0\n";
    // 127 and 64 at 160: (127·160 + 127) ÷ 255 = 80, (64·160 + 127) ÷ 255 = 40.
    assert_eq!(last_layer(1, 1, line, &pixels("28140050")), pixels("5028a0a0"));
    // Transparent black has an alpha too: 0.25 is 63.75. Its straight colours are 0.
    let line = "curve 0 0 2 1 src table 2 1 0 identity identity discrete 2 0.25 0\n";
    assert_eq!(last_layer(2, 1, line, &pixels("00000000 ff8000ff")), pixels("40000040 00000000"));
    // The alpha lowered to a half: 255 and 128 at 128 are 128 and 64.
    let line = "curve 0 0 1 1 src identity identity identity linear 0.5 0\n";
    assert_eq!(last_layer(1, 1, line, &pixels("ff8000ff")), pixels("80400080"));
}

/// Identity on all channels changes no valid pixel, and what is valid stays valid.
#[test]
fn valid_pixels_stay_valid() {
    let same = maps([Identity; 4], &[], Fault::None);
    let mut random = Random::new(23);
    let v: Vec<i64> = (0..64).map(|_| units(&mut random)).collect();
    let other = maps([Table(16), Discrete(16), Table(16), Discrete(16)], &v, Fault::None);
    for alpha in 0..=255 {
        for colour in 0..=alpha {
            let p = [colour, alpha, alpha - colour, alpha];
            assert_eq!(curve(&same, p, Fault::None), p);
            let [r, g, b, a] = curve(&other, p, Fault::None);
            assert!(r <= a && g <= a && b <= a);
        }
    }
}

/// In linear light the source is converted first: 128 is 55, 64 is 13; half of them, rounded up, 28 and 7.
#[test]
fn spaces() {
    let line = "curve 0 0 1 1 src linear 0.5 0 linear 0.5 0 identity identity";
    let drawn_as = |ending: &str| drawn(1, 1, &as_written(&format!("{line}{ending}\n")), &pixels("804020ff")).1;
    assert_eq!(drawn_as(" srgb"), pixels("402020ff"));
    assert_eq!(drawn_as(" linear"), pixels("1c0704ff"));
    assert_eq!(drawn_as(""), drawn_as(" linear"));
    // The same layers, read by a step of the other space.
    let two = format!("{line} srgb\ncurve 0 0 1 1 0 identity identity identity identity\n");
    assert_eq!(drawn(1, 1, &as_written(&two), &pixels("804020ff")).1, pixels("402020ff 0d0404ff"));
}

/// "With the redraw rectangle of its input", though it makes a colour of transparent black: cut to its region, never grown.
#[test]
fn rectangles() {
    let line = "curve 1 0 3 2 src identity identity identity discrete 1 1\n";
    let mut workspace = alphas(&[3; 12]);
    let answer = redrawn(6, 2, &steps(line), region(0, 0, 3, 1), &alphas(&[0; 12]), &mut workspace);
    assert_eq!(answer, (Answer::DONE, 2));
    assert_eq!(workspace, alphas(&[3, 255, 255, 3, 3, 3, 3, 3, 3, 3, 3, 3]));
    // Of a flood's layer nothing is drawn again; of a moved layer what moved.
    let chain = "flood 0 0 6 2 1 2 3 1\ncurve 0 0 6 2 0 identity identity identity linear 0.5 0\n";
    let mut workspace = alphas(&[3; 24]);
    assert_eq!(redrawn(6, 2, &steps(chain), region(0, 0, 6, 2), &[0; 48], &mut workspace), (Answer::DONE, 0));
    let moved = "offset 0 0 6 2 src 4 0\ncurve 0 0 6 2 0 identity identity identity linear 0.5 0\n";
    assert_eq!(redrawn(6, 2, &steps(moved), region(0, 0, 6, 1), &[0; 48], &mut workspace), (Answer::DONE, 2 + 2));
}

/// Refusals that a line of text can earn, with their places.
#[test]
fn refusals_of_lines() {
    let source = [0; 4];
    let answer = |line: &str| drawn(1, 1, &steps(&format!("lumalpha 0 0 1 1 src\n{line}\n")), &source).0;
    let rest = "identity identity identity";
    for (line, number) in [
        (format!("curve 0 0 1 1 1 table 2 -1 2 {rest}"), 7),
        (format!("curve 0 0 1 1 0 table 2 x7fc00000 -1 {rest}"), 8),
        (format!("curve 0 0 1 1 0 table 2 0 -0.0001 {rest}"), 9),
        (format!("curve 0 0 1 1 0 discrete 2 1 1.0001 {rest}"), 10),
        (format!("curve 0 0 1 1 0 linear 256.0001 xff800000 {rest}"), 10),
        (format!("curve 0 0 1 1 0 linear -256 x43800001 {rest}"), 10),
        (format!("curve 0 0 1 1 0 {rest} linear 0 xffc00000"), 8),
        (format!("curve 1 0 1 1 0 {rest} discrete 1 -1"), 9),
        (format!("curve 1 0 1 1 0 {rest} discrete 1 1"), 13),
    ] {
        assert_eq!(answer(&line), Answer::refused(number, 1), "{line}");
    }
    for line in ["table 2 0 1", "discrete 2 x80000000 1", "linear 256 -256", "linear -256 256"] {
        assert_eq!(answer(&format!("curve 0 0 1 1 0 {line} {rest}")), Answer::DONE, "{line}");
    }
}

/// On a picture of a few colours, all kinds in all channels: what is drawn is what the maps say.
#[test]
fn pictures_by_maps() {
    let mut random = Random::new(24);
    let source = picture(&mut random, 35);
    let line = "curve 0 0 7 5 src table 3 0 1 0.5 discrete 3 1 0 0.5 linear -1 1 table 2 1 0.25\n";
    let half = UNIT / 2;
    let units = [0, UNIT, half, UNIT, 0, half, -UNIT, UNIT, UNIT, UNIT / 4];
    let maps = maps([Table(3), Discrete(3), Linear, Table(2)], &units, Fault::None);
    let expected: Vec<u8> =
        source.chunks_exact(4).flat_map(|p| curve(&maps, [p[0], p[1], p[2], p[3]], Fault::None)).collect();
    assert_eq!(last_layer(7, 5, line, &source), expected);
}
