//! Values of a message, and how they look as bytes.

use crate::Rules;

/// By which edition a message is read or written.
#[derive(Clone, Copy, Debug, PartialEq, Eq)]
pub enum Edition {
    Current,
    Of2001,
}

#[derive(Clone, Copy, Debug, PartialEq, Eq)]
pub enum Form {
    Single,
    Pair,
    Compound,
}

#[derive(Clone, Copy, Debug, PartialEq, Eq, PartialOrd, Ord)]
pub struct Day {
    pub year: u16,
    pub day: u16,
}

#[derive(Clone, Copy, Debug, PartialEq, Eq)]
pub struct Time {
    pub hour: u8,
    pub minute: u8,
}

#[derive(Clone, Copy, Debug, PartialEq, Eq)]
pub enum Structure {
    Empty,
    Donation {
        first: u8,
        facility: u16,
        year: u8,
        sequence: u32,
        flag: u8,
    },
    Groups {
        gg: [u8; 2],
        r: u8,
    },
    Product([u8; 8]),
    Expiry(Day),
    ExpiryTime(Day, Time),
    Collection(Day),
    CollectionTime(Day, Time),
    Production(Day),
    ProductionTime(Day, Time),
    Testing([u8; 5]),
    Antigens(u64),
    Lot([u8; 10]),
    Flexible {
        z: u8,
        tt: u8,
        year: u16,
        month: u8,
        day: u8,
        time: Time,
    },
    /// The antigens of 2001: sixteen digits, then two.
    OldAntigens {
        sixteen: u64,
        two: u8,
    },
}

impl Structure {
    /// The number of its kind, 0 for the empty one; the antigens of 2001 have none, and 200 here.
    pub fn kind(&self) -> u8 {
        match self {
            Structure::Empty => 0,
            Structure::Donation { .. } => 1,
            Structure::Groups { .. } => 2,
            Structure::Product(_) => 3,
            Structure::Expiry(_) => 4,
            Structure::ExpiryTime(..) => 5,
            Structure::Collection(_) => 6,
            Structure::CollectionTime(..) => 7,
            Structure::Production(_) => 8,
            Structure::ProductionTime(..) => 9,
            Structure::Testing(_) => 10,
            Structure::Antigens(_) => 12,
            Structure::Lot(_) => 18,
            Structure::Flexible { .. } => 31,
            Structure::OldAntigens { .. } => 200,
        }
    }
}

/// Room for a structure, which tells where it stood: its first byte's place, and its bytes.
#[derive(Clone, Copy, Debug, PartialEq, Eq)]
pub struct Entry {
    pub structure: Structure,
    pub place: usize,
    pub length: usize,
}

impl Entry {
    pub const EMPTY: Entry = Entry { structure: Structure::Empty, place: 0, length: 0 };
}

/// A structure that stood nowhere, as a writer may be given it.
impl From<Structure> for Entry {
    fn from(structure: Structure) -> Entry {
        Entry { structure, ..Entry::EMPTY }
    }
}

/// A donation number without flags, as keyboard entry gives it.
#[derive(Clone, Copy, Debug, Default, PartialEq, Eq)]
pub struct Donation {
    pub first: u8,
    pub facility: u16,
    pub year: u8,
    pub sequence: u32,
}

#[derive(Clone, Copy, Debug, PartialEq, Eq)]
pub struct Message {
    pub form: Form,
    pub bbb: u16,
    pub number: usize,
    pub entries: [Entry; 16],
}

impl Message {
    pub const EMPTY: Message =
        Message { form: Form::Single, bbb: 0, number: 0, entries: [Entry::EMPTY; 16] };
}

/// Digits that an automaton has let through.
fn number<N: std::str::FromStr>(digits: &[u8]) -> N {
    let text = std::str::from_utf8(digits).expect("digits");
    text.parse().unwrap_or_else(|_| panic!("{text} fits"))
}

/// The 13 characters of a donation number.
pub fn donation(s: &[u8]) -> Donation {
    Donation {
        first: s[0],
        facility: number(&s[1..5]),
        year: number(&s[5..7]),
        sequence: number(&s[7..13]),
    }
}

fn day(s: &[u8], nine: u16) -> Day {
    let century: u16 = number(&s[..1]);
    let base = if century == 9 { nine } else { 2000 + 100 * century };
    Day { year: base + number::<u16>(&s[1..3]), day: number(&s[3..6]) }
}

/// A time that ends the content.
fn time(s: &[u8]) -> Time {
    let hhmm = &s[s.len() - 4..];
    Time { hour: number(&hhmm[..2]), minute: number(&hhmm[2..]) }
}

fn flexible(s: &[u8]) -> Structure {
    Structure::Flexible {
        z: s[0],
        tt: number(&s[2..4]),
        year: number(&s[4..8]),
        month: number(&s[8..10]),
        day: number(&s[10..12]),
        time: time(s),
    }
}

fn bytes<const N: usize>(s: &[u8]) -> [u8; N] {
    s.try_into().expect("a content of this length")
}

/// Value of one accepted structure, `nine` being the first year of the century of the digit 9.
fn value(s: &[u8], nine: u16) -> Structure {
    let c = &s[2..];
    let day = |c| day(c, nine);
    match &s[..2] {
        b"=%" => Structure::Groups { gg: bytes(&c[..2]), r: c[2] },
        b"=<" => Structure::Product(bytes(c)),
        b"=>" => Structure::Expiry(day(c)),
        b"&>" => Structure::ExpiryTime(day(c), time(c)),
        b"=*" => Structure::Collection(day(c)),
        b"&*" => Structure::CollectionTime(day(c), time(c)),
        b"=}" => Structure::Production(day(c)),
        b"&}" => Structure::ProductionTime(day(c), time(c)),
        b"&(" => Structure::Testing(bytes(c)),
        b"=\\" => Structure::Antigens(number(c)),
        b"&)" => Structure::Lot(bytes(c)),
        b"=(" => flexible(c),
        b"={" => Structure::OldAntigens { sixteen: number(&c[..16]), two: number(&c[16..18]) },
        _ => {
            let Donation { first, facility, year, sequence } = donation(&s[1..14]);
            Structure::Donation { first, facility, year, sequence, flag: number(&s[14..]) }
        }
    }
}

/// Values of accepted bytes. No content holds `=` or `&`, so each of these begins a structure.
pub(crate) fn values(accepted: &[u8], rules: &Rules) -> Message {
    let mut message = Message::EMPTY;
    let compound = accepted.starts_with(b"=+");
    let head = if compound { 7 } else { 0 };
    let mut starts: Vec<usize> =
        (head..accepted.len()).filter(|&at| matches!(accepted[at], b'=' | b'&')).collect();
    starts.push(accepted.len());
    message.number = starts.len() - 1;
    for (entry, ends) in message.entries.iter_mut().zip(starts.windows(2)) {
        let text = &accepted[ends[0]..ends[1]];
        let place = if rules.headless { ends[0] - head } else { ends[0] };
        *entry = Entry { structure: value(text, rules.nine), place, length: text.len() };
    }
    if compound {
        message.form = Form::Compound;
        message.bbb = number(&accepted[4..7]);
    } else if message.number == 2 {
        message.form = Form::Pair;
    }
    message
}

/// Written by arithmetic that is only right for lawful days: the others do not read back.
fn day_text(day: &Day) -> String {
    let cyy = match day.year {
        1900..=1999 => day.year - 1000,
        2000.. => day.year - 2000,
        _ => u16::MAX,
    };
    format!("{cyy:03}{:03}", day.day)
}

fn time_text(time: &Time) -> String {
    format!("{:02}{:02}", time.hour, time.minute)
}

fn moment_text(day: &Day, time: &Time) -> String {
    day_text(day) + &time_text(time)
}

/// A structure as bytes, but for the K of 2001's antigens, which the grammar knows. A value out of its
/// range gives bytes that do not read back as it.
pub fn text(structure: &Structure) -> Vec<u8> {
    let join = |identifier: &str, content: &[u8]| [identifier.as_bytes(), content].concat();
    match structure {
        Structure::Empty => Vec::new(),
        Structure::Donation { first, facility, year, sequence, flag } => {
            let rest = format!("{facility:04}{year:02}{sequence:06}{flag:02}");
            [&[b'=', *first], rest.as_bytes()].concat()
        }
        Structure::Groups { gg, r } => join("=%", &[gg[0], gg[1], *r, b'0']),
        Structure::Product(code) => join("=<", code),
        Structure::Expiry(d) => join("=>", day_text(d).as_bytes()),
        Structure::ExpiryTime(d, t) => join("&>", moment_text(d, t).as_bytes()),
        Structure::Collection(d) => join("=*", day_text(d).as_bytes()),
        Structure::CollectionTime(d, t) => join("&*", moment_text(d, t).as_bytes()),
        Structure::Production(d) => join("=}", day_text(d).as_bytes()),
        Structure::ProductionTime(d, t) => join("&}", moment_text(d, t).as_bytes()),
        Structure::Testing(code) => join("&(", code),
        Structure::Antigens(digits) => join("=\\", format!("{digits:018}").as_bytes()),
        Structure::Lot(lot) => join("&)", lot),
        Structure::Flexible { z, tt, year, month, day, time } => {
            let rest = format!("0{tt:02}{year:04}{month:02}{day:02}{}", time_text(time));
            join("=(", &[&[*z], rest.as_bytes()].concat())
        }
        Structure::OldAntigens { sixteen, two } => {
            join("={", format!("{sixteen:016}{two:02}").as_bytes())
        }
    }
}
