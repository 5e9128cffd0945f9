//! Random arrival texts for the program: readable ones, ones damaged in a single place, and heaps
//! of bytes.

use super::{tag, Random};

/// A damage after which some line of the text is unreadable.
#[derive(Clone, Copy, PartialEq, Eq, Debug)]
pub enum TextDamage {
    BadField,
    HugeNumber,
    ExtraField,
    MissingField,
    DoubleSpace,
    Tab,
    CarriageReturn,
    StrayByte,
    BlankLine,
    NoFinalNewline,
    BytesAfterTheEnd,
}

impl TextDamage {
    pub const ALL: [TextDamage; 11] = [
        TextDamage::BadField,
        TextDamage::HugeNumber,
        TextDamage::ExtraField,
        TextDamage::MissingField,
        TextDamage::DoubleSpace,
        TextDamage::Tab,
        TextDamage::CarriageReturn,
        TextDamage::StrayByte,
        TextDamage::BlankLine,
        TextDamage::NoFinalNewline,
        TextDamage::BytesAfterTheEnd,
    ];
}

/// Unreadable in every line, the first among them.
const BAD_FIELDS: [&str; 17] = [
    "",
    "x",
    "+1",
    "-1",
    "--",
    "- ",
    ":",
    "1:",
    ":1",
    "-:1",
    "1:-",
    "1:2:3",
    "+1:2",
    "1:+2",
    "0x1:2",
    "1.0:2",
    "\u{663}:1",
];

/// Some too large by one, some that would wrap round to a small number.
const HUGE_NUMBERS: [&str; 5] = [
    "4294967296",
    "004294967297",
    "18446744073709551617",
    "340282366920938463463374607431768211457",
    "99999999999999999999999999999999999999999999999999",
];

/// A text without fields that cannot be read: mostly good sizes and slots, seldom refused ones.
pub fn good_text(random: &mut Random) -> Vec<u8> {
    join(&lines(random))
}

/// A good text, damaged in this one way.
pub fn damaged_text(random: &mut Random, damage: TextDamage) -> Vec<u8> {
    let mut lines = lines(random);
    let at = random.index(lines.len());
    let line = &mut lines[at];
    match damage {
        TextDamage::BadField => replace_field(random, line, |random, _| bad_field(random)),
        TextDamage::HugeNumber => replace_field(random, line, huge_field),
        TextDamage::ExtraField => extra_field(random, line),
        TextDamage::MissingField => drop(line.pop()),
        TextDamage::DoubleSpace => extra_space(random, line),
        TextDamage::Tab => insert_byte(random, line, b'\t'),
        TextDamage::CarriageReturn => line
            .last_mut()
            .into_iter()
            .for_each(|field| field.push(b'\r')),
        TextDamage::StrayByte => {
            let byte = random.pick(b"\t\r\x00 ,;+x\x0B\x7F\x80\xC3\xFF");
            insert_byte(random, line, byte);
        }
        TextDamage::BlankLine => lines.insert(at, Vec::new()),
        TextDamage::NoFinalNewline | TextDamage::BytesAfterTheEnd => {}
    }
    finish(random, damage, join(&lines))
}

/// A text of any kind.
pub fn text(random: &mut Random) -> Vec<u8> {
    match random.below(10) {
        0 => soup(random),
        1..=5 => good_text(random),
        _ => {
            let damage = random.pick(&TextDamage::ALL);
            damaged_text(random, damage)
        }
    }
}

/// Bytes of the kinds that texts are made of, in no order; often nothing at all is readable.
pub fn soup(random: &mut Random) -> Vec<u8> {
    let start: &[u8] = random.pick(&[b"".as_slice(), b"1 3 4\n", b"2 3 4\n", b"2 1 2\n"]);
    let length = random.index(40);
    let bytes = (0..length).map(|_| random.pick(b"0123 :-\n\t9 :-\n"));
    start.iter().copied().chain(bytes).collect()
}

type Line = Vec<Vec<u8>>;

fn lines(random: &mut Random) -> Vec<Line> {
    let ports = random.between(1, 4);
    let some_ports = random.between(1, 16);
    let ports = random.pick(&[ports, ports, some_ports]);
    let speedup = random.between(1, 8);
    let records = random.between(1, 4 * ports);
    let load = random.pick(&[10, 50, 90]);
    let slots = random.between(0, 12);
    let mut lines = vec![sizes(random, [ports, speedup, records])];
    lines.extend((0..slots).map(|_| arrivals(random, ports, load)));
    lines
}

fn sizes(random: &mut Random, good: [u32; 3]) -> Line {
    let mut sizes = good;
    if random.one_in(8) {
        let too_many = [[17, 18], [9, 10], [1025, 1_000_000]];
        let size = random.index(sizes.len());
        let [least, more] = too_many[size];
        sizes[size] = random.pick(&[0, least, more, u32::MAX]);
    }
    sizes.map(|number| digits(random, number)).to_vec()
}

fn arrivals(random: &mut Random, ports: u32, load: u32) -> Line {
    (0..ports)
        .map(|_| {
            if random.percent(load) {
                arrival(random, ports)
            } else {
                b"-".to_vec()
            }
        })
        .collect()
}

fn arrival(random: &mut Random, ports: u32) -> Vec<u8> {
    let good = random.between(0, ports - 1);
    let refused = random.pick(&[ports, ports + 1, u32::MAX - 1]);
    let output = if random.one_in(40) { refused } else { good };
    let tag = tag(random);
    [digits(random, output), digits(random, tag)].join(&b':')
}

/// Decimal digits, sometimes after zeros, seldom after very many.
fn digits(random: &mut Random, number: u32) -> Vec<u8> {
    let zeros = match random.below(40) {
        0 => random.index(300),
        1..=4 => random.index(12),
        _ => 0,
    };
    format!("{}{number}", "0".repeat(zeros)).into_bytes()
}

fn replace_field(
    random: &mut Random,
    line: &mut Line,
    replacement: impl Fn(&mut Random, &[u8]) -> Vec<u8>,
) {
    let field = random.index(line.len());
    line[field] = replacement(random, &line[field]);
}

fn bad_field(random: &mut Random) -> Vec<u8> {
    random.pick(&BAD_FIELDS).as_bytes().to_vec()
}

/// A huge number where the field has a number, and a huge output or tag elsewhere.
fn huge_field(random: &mut Random, field: &[u8]) -> Vec<u8> {
    let huge = random.pick(&HUGE_NUMBERS);
    if field.iter().all(u8::is_ascii_digit) {
        return huge.as_bytes().to_vec();
    }
    let forms = [
        format!("{huge}:0"),
        format!("0:{huge}"),
        "4294967295:0".to_string(),
    ];
    forms[random.index(forms.len())].clone().into_bytes()
}

fn extra_field(random: &mut Random, line: &mut Line) {
    let field = line[random.index(line.len())].clone();
    line.push(field);
}

/// An empty field has a space on both of its sides.
fn extra_space(random: &mut Random, line: &mut Line) {
    let place = random.index(line.len() + 1);
    line.insert(place, Vec::new());
}

fn insert_byte(random: &mut Random, line: &mut Line, byte: u8) {
    let field = random.index(line.len());
    let place = random.index(line[field].len() + 1);
    line[field].insert(place, byte);
}

fn join(lines: &[Line]) -> Vec<u8> {
    let mut text = Vec::new();
    for line in lines {
        text.extend(line.join(&b' '));
        text.push(b'\n');
    }
    text
}

fn finish(random: &mut Random, damage: TextDamage, mut text: Vec<u8>) -> Vec<u8> {
    match damage {
        TextDamage::NoFinalNewline => drop(text.pop()),
        TextDamage::BytesAfterTheEnd => {
            let bytes: &[u8] =
                random.pick(&[b"-".as_slice(), b" ", b"0:1", b"- -", b"\r", b"\x00"]);
            text.extend(bytes);
        }
        _ => {}
    }
    text
}
