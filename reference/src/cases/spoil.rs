//! Ways in which a field, a line or a text can be wrong; some of them leave it well formed.

use crate::random::Random;

/// Fields to put in another's place.
const ODD_FIELDS: [&str; 69] = [
    "",
    "0",
    "00",
    "01",
    "-0",
    "+0",
    "0.0",
    "-0.0000",
    "0.00000",
    "00.5",
    ".5",
    "5.",
    "1.5",
    "-1",
    "-1.5",
    "--1",
    "-",
    "1e3",
    "nan",
    "inf",
    "0x10",
    "99999.9999",
    "100000",
    "-99999",
    "x",
    "x7fc00000",
    "x7FC00000",
    "x8000000",
    "x800000000",
    "X80000000",
    "x8000000g",
    "x80000000",
    "src",
    "alpha",
    "Src",
    "source",
    "15",
    "16",
    "17",
    "63",
    "64",
    "255",
    "256",
    "1025",
    "9999",
    "10000",
    "srgb",
    "linear",
    "sRGB",
    "Linear",
    "linearRGB",
    "linear ",
    "identity",
    "table",
    "discrete",
    "Table",
    "gamma",
    "5",
    "6",
    "true",
    "false",
    "True",
    "1.0",
    "duplicate",
    "wrap",
    "none",
    "None",
    "mirror",
    "x37000000",
];

const PREFIXES: [&str; 7] = ["0", "+", "-", " ", "x", "1", "\0"];
const SUFFIXES: [&str; 12] = [".", ".5", ".1234", ".12345", " ", "\r", "0", "1", "a", "\0", ".0.0", "\u{b}"];

/// The number of ways to change a field.
pub const FIELD_WAYS: usize = ODD_FIELDS.len() + PREFIXES.len() + SUFFIXES.len() + 3;

/// A field changed in one way.
pub fn field(field: &[u8], way: usize) -> Vec<u8> {
    if way < ODD_FIELDS.len() {
        return ODD_FIELDS[way].into();
    }
    let way = way - ODD_FIELDS.len();
    if way < PREFIXES.len() {
        return [PREFIXES[way].as_bytes(), field].concat();
    }
    let way = way - PREFIXES.len();
    if way < SUFFIXES.len() {
        return [field, SUFFIXES[way].as_bytes()].concat();
    }
    match way - SUFFIXES.len() {
        0 => field.to_ascii_uppercase(),
        1 => field[..field.len().saturating_sub(1)].to_vec(),
        _ => field[field.len().min(1)..].to_vec(),
    }
}

const LINES: [&str; 12] = [
    "",
    "\t",
    "row",
    "row\t00000000",
    "row\t00000000\t00000000",
    "canvas\t1\t1",
    "end",
    "# remark",
    "merge\t0\t0\t1\t1\tsrc",
    "lumalpha\t0\t0\t1\t1\tsrc",
    "lumalpha\t0\t0\t1\t1\t9999",
    "over\t0\t0\t1\t1\tsrc",
];

/// What may stand after a step's numbers, and what may be mistaken for it.
pub const ENDINGS: [&str; 16] = [
    "",
    "\tsrgb",
    "\tlinear",
    "\tsRGB",
    "\tlinearRGB",
    "\tLINEAR",
    "\tauto",
    "\t",
    "\tsrgb\t",
    "\t\tsrgb",
    "\tsrgb\tsrgb",
    "\tlinear\tsrgb",
    "\tsrgb\tsrc",
    "\tsrgb\t0",
    " srgb",
    "\tsrgb ",
];

/// The number of ways to change a text at a line.
pub const LINE_WAYS: usize = 17 + ENDINGS.len() + LINES.len();

/// `srgb` before a line's last field.
pub fn space_before_last(line: &mut Vec<u8>) {
    let last = line.iter().rposition(|byte| *byte == b'\t').unwrap_or(line.len());
    line.splice(last..last, *b"\tsrgb");
}

/// A text's lines changed in one way at one line, which is below their number.
pub fn lines(lines: &mut Vec<Vec<u8>>, at: usize, way: usize) {
    let tab = |line: &[u8]| line.iter().position(|byte| *byte == b'\t').unwrap_or(line.len());
    let line = &mut lines[at];
    match way {
        0 => line.push(b'\t'),
        1 => line.insert(0, b'\t'),
        2 => line.push(b'\r'),
        3 => line.push(b' '),
        4 => line.insert(0, b' '),
        5 => line.insert(tab(line), b'\t'),
        6 => line.insert(tab(line), b' '),
        7 => line.truncate(line.iter().rposition(|byte| *byte == b'\t').unwrap_or(0)),
        8 => line.extend(b"\t0"),
        9 => line.extend(b"\tsrc"),
        10 => *line = line.to_ascii_uppercase(),
        11 => line.iter_mut().for_each(|byte| {
            if *byte == b'\t' {
                *byte = b' '
            }
        }),
        12 => drop(lines.remove(at)),
        13 => {
            let again = line.clone();
            lines.insert(at, again);
        }
        14 => {
            let other = (at + 1) % lines.len();
            lines.swap(at, other);
        }
        15 => {
            let step = line.clone();
            (0..64).for_each(|_| lines.insert(at, step.clone()));
        }
        16 => space_before_last(line),
        _ if way < 17 + ENDINGS.len() => line.extend(ENDINGS[way - 17].as_bytes()),
        _ => lines.insert(at, LINES[way - 17 - ENDINGS.len()].into()),
    }
}

pub fn split(text: &[u8]) -> Vec<Vec<u8>> {
    let closed = text.strip_suffix(b"\n").unwrap_or(text);
    closed.split(|byte| *byte == b'\n').map(<[u8]>::to_vec).collect()
}

pub fn join(lines: &[Vec<u8>]) -> Vec<u8> {
    lines.iter().flat_map(|line| line.iter().copied().chain([b'\n'])).collect()
}

/// Every field of a line changed in every way.
pub fn every_field(line: &[u8]) -> Vec<Vec<u8>> {
    let fields: Vec<&[u8]> = line.split(|byte| *byte == b'\t').collect();
    let mut all = Vec::new();
    for at in 0..fields.len() {
        for way in 0..FIELD_WAYS {
            let changed = field(fields[at], way);
            let mut fields = fields.clone();
            fields[at] = &changed;
            all.push(fields.join(&b'\t'));
        }
    }
    all
}

/// One random change of a field, a line or a byte.
pub fn anywhere(random: &mut Random, text: &mut Vec<u8>) {
    let mut all = split(text);
    let at = random.below(all.len());
    match random.below(8) {
        0..=3 => {
            let fields: Vec<&[u8]> = all[at].split(|byte| *byte == b'\t').collect();
            // Numbers and the space come last.
            let late = fields.len().saturating_sub(1 + random.below(2));
            let which = if random.once_in(2) { late } else { random.below(fields.len()) };
            let changed = field(fields[which], random.below(FIELD_WAYS));
            let mut fields = fields.clone();
            fields[which] = &changed;
            all[at] = fields.join(&b'\t');
            *text = join(&all);
        }
        4 | 5 => {
            lines(&mut all, at, random.below(LINE_WAYS));
            *text = join(&all);
        }
        6 => drop(text.pop()),
        _ => bytes(random, text),
    }
}

/// A byte changed, put in or left out, or the rest of the text cut off.
fn bytes(random: &mut Random, text: &mut Vec<u8>) {
    let at = random.below(text.len() + 1);
    let byte = random.pick(&[0, b'\t', b'\n', b'\r', b' ', b'0', b'9', b'a', b'-', b'.', 127, 255]);
    match random.below(4) {
        0 => text.insert(at, byte),
        1 => text.truncate(at),
        2 if at < text.len() => text[at] = byte,
        _ if at < text.len() => drop(text.remove(at)),
        _ => text.push(byte),
    }
}
