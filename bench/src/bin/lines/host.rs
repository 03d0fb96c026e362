//! Records of what is imported from the hospital host and exported to it: `second::asked` has their
//! layout. What is imported is made from labels, field by field.

use super::asked::{fields as values, flagged, length, message, near, numbers, room, sample};
use super::asked::{set, spoil, Entry, Given, BBBS, EMPTY, KINDS, NUMBERS};
use super::asked::{COMPOUND, PAIR, SINGLE};
use super::extract::Label;
use super::{any_structure, check, damage, every_byte, samples, sequence_for, Chance, Out};
use super::{CENTURIES, DAYS, HOURS, IDENTIFIERS, MINUTES, MONTHS, MONTH_DAYS, TELLING, YEARS};
use second::asked::{ENTRY, HEAD, MOST_EXPORT, MOST_ROOM, MOST_SCAN, RECORD};
use std::io::{Result, Write};

const DONATION: u8 = 1;
/// Tag of a compound's first field.
const FIRST: u8 = 23;
/// Antigens of 2001, which are no kind here.
const OLD_ANTIGENS: u8 = 200;
/// Tags, lengths and bytes of labels.
const LIKELY: &[u8] = b"\0\x01\x02\x0f\x17\x1f\xc809AO=";
/// Labels of each kind, the pairs and two small compounds.
const SMALL: [&str; 17] = [
    "=W00002112345670",
    "=%6410",
    "=<E0178VBb",
    "=>020366",
    "&>0213652359",
    "=*900365",
    "&*1003651959",
    "=}400366",
    "&}8990012030",
    "&(N0008",
    "=\\979999999999924799",
    "&)00aZ901xyQ",
    "=(2003202402292030",
    "=W00002112345600=%5100",
    "=<E0178VBb&>0203661330",
    "=+01000=%5100",
    "=+02999=W00002112345670=%5100",
];

/// Tag and data.
type Field = (u8, Vec<u8>);

/// The field of a structure on a label, lawful or not.
fn field(text: &[u8]) -> Field {
    let others = [(FIRST, "=+"), (OLD_ANTIGENS, "={")];
    let kinds = KINDS.into_iter().zip(IDENTIFIERS).skip(1).chain(others);
    let begun = kinds.into_iter().find(|(_, identifier)| text.starts_with(identifier.as_bytes()));
    let (tag, identifier) = begun.unwrap_or((DONATION, "="));
    (tag, text[identifier.len()..].to_vec())
}

/// Those of a whole label: no content has = or &, so each of these begins a structure.
fn fields(label: &[u8]) -> Vec<Field> {
    let mut starts: Vec<usize> =
        (0..label.len()).filter(|&at| matches!(label[at], b'=' | b'&')).collect();
    starts.push(label.len());
    starts.windows(2).map(|ends| field(&label[ends[0]..ends[1]])).collect()
}

fn field_bytes((tag, data): &Field) -> Vec<u8> {
    [&[*tag][..], &(data.len() as u16).to_be_bytes(), data].concat()
}

fn record(fields: &[Field]) -> Vec<u8> {
    fields.iter().flat_map(field_bytes).collect()
}

/// The record with the same contents as a label.
fn of(label: &str) -> Vec<u8> {
    record(&fields(label.as_bytes()))
}

/// A record to be imported, if there is room for it.
fn import(bytes: &[u8], out: &mut Out) -> Result<()> {
    if MOST_SCAN < bytes.len() {
        return Ok(());
    }
    import_of(bytes.len(), bytes, out)
}

/// The same of so many bytes, those behind being no part of it.
fn import_of(length: usize, bytes: &[u8], out: &mut Out) -> Result<()> {
    let mut record = [b'0'; RECORD];
    record[0] = b'I';
    record[1..3].copy_from_slice(&(length as u16).to_be_bytes());
    // The byte of the 2001 edition, which counts for nothing.
    record[3] = 1;
    record[HEAD..HEAD + bytes.len()].copy_from_slice(bytes);
    out.to.write_all(&record)
}

/// A message to be exported; the edition, of which some have the byte of 2001, counts for nothing.
fn export(given: &Given, room: usize, out: &mut Out) -> Result<()> {
    let edition = (given.number % 2) as u8;
    Given { edition, ..given.clone() }.ask_for(b'X', room, out)
}

/// Bytes of a message's record.
fn needed(given: &Given) -> usize {
    let head = if given.form < COMPOUND { 0 } else { 8 };
    let within = given.entries[..given.number.min(16) as usize].iter();
    let fields = within.map(|entry| match entry[0] {
        DONATION => 3 + 15,
        kind if length(kind) == 0 => 0,
        kind => 3 + length(kind) - 2,
    });
    head + fields.sum::<usize>()
}

/// A few of each answer.
pub fn few(out: &mut Out) -> Result<()> {
    for given in [
        Given::new(SINGLE, 0, &[sample(2)]),
        Given::new(PAIR, 0, &[sample(1), sample(2)]),
        Given::new(COMPOUND, 999, &KINDS.map(sample)),
    ] {
        let needed = needed(&given);
        (needed - 1..needed + 2).try_for_each(|room| export(&given, room, out))?;
    }
    export(&Given::new(SINGLE, 0, &[sample(OLD_ANTIGENS)]), 24, out)?;
    export(&Given::new(COMPOUND, 0, &[sample(1), sample(2), sample(1)]), 60, out)?;
    export(&Given::new(COMPOUND, 0, &[sample(2), flagged(123456, 71)]), 40, out)?;
    for label in SMALL {
        import(&of(label), out)?;
    }
    for refused in [
        "=%510",
        "=O00002112345670",
        "=%51-0",
        "=%6201",
        "=>021366",
        "&>0213652400",
        "=W00002112345671",
        "=%5100=%5100",
        "=+17000",
        "=+02000=%5100=+01000",
        "=+02000=W00002112345670=W00002112345670",
        "=+02000={880000000087000099C",
        "={880000000087000099C",
    ] {
        import(&of(refused), out)?;
    }
    let donation = of("=W00002112345670");
    for more in [&b"\x02"[..], b"\x02\x01", b"\x03"] {
        import(&[&donation[..], more].concat(), out)?;
    }
    import(b"\x02\0\x05", out)?;
    import(b"\x02\x01\x045100", out)?;
    import(b"", out)?;
    import(&[&[1, 0, 15, b'*'], &donation[4..]].concat(), out)
}

/// A record cut, with these bytes at every place, and continued by any.
fn mutations(record: &[u8], bytes: &[u8], out: &mut Out) -> Result<()> {
    for at in 0..record.len() {
        import(&record[..at], out)?;
        for &byte in bytes.iter().filter(|&&byte| byte != record[at]) {
            import(&[&record[..at], &[byte], &record[at + 1..]].concat(), out)?;
        }
    }
    import(record, out)?;
    every_byte().try_for_each(|byte| import(&[record, &[byte]].concat(), out))
}

/// Small records with every byte, larger ones with likely bytes, and lengths over the most of one.
fn every_byte_changed(out: &mut Out) -> Result<()> {
    let all: Vec<u8> = every_byte().collect();
    for label in SMALL {
        mutations(&of(label), &all, out)?;
        for length in [MOST_SCAN, MOST_SCAN + 1, 65535] {
            import_of(length, &of(label), out)?;
        }
    }
    for label in samples().into_iter().filter(|label| !SMALL.contains(&&label[..])) {
        mutations(&of(&label), LIKELY, out)?;
    }
    mutations(&of(&format!("=+16000{}", "=\\979999999999924799".repeat(16))), LIKELY, out)
}

/// Every tag at the beginning and in compounds, with an 001 before it or without, then nothing or a
/// length that need not be its own.
fn every_tag(out: &mut Out) -> Result<()> {
    every_byte().try_for_each(|tag| import(&[tag], out))?;
    for (first, number) in ["=W00002112345670", "=%5100"]
        .into_iter()
        .flat_map(|first| [1, 2, 3, 16].map(move |number| (first, number)))
    {
        for before in [1, 2, 3, 15, 16].into_iter().filter(|&before| before <= number) {
            let others = "&(N0008".repeat(before - 1);
            let begun = of(&format!("=+{number:02}000{first}{others}"));
            every_byte().try_for_each(|tag| import(&[&begun[..], &[tag]].concat(), out))?;
            for tag in KINDS.into_iter().chain([FIRST, OLD_ANTIGENS]) {
                for length in [[0, 4], [0, 10], [1, 10], [10, 0]] {
                    import(&[&begun[..], &[tag], &length, b"5100"].concat(), out)?;
                }
            }
        }
    }
    Ok(())
}

/// Each field with data of every length, which its length tells or not, alone and among others.
fn every_length(out: &mut Out) -> Result<()> {
    let heads = ["", "=+01000", "=+02000=%5100", "=+16000=W00002112345600"];
    for label in SMALL[..13].iter().chain(&["=+01000"]) {
        let (tag, data) = field(label.as_bytes());
        for (head, length) in
            heads.iter().flat_map(|head| (0..24).map(move |length| (head, length)))
        {
            let head = of(head);
            let mut other = data.clone();
            other.resize(length, b'0');
            import(&[&head[..], &field_bytes(&(tag, other.clone()))].concat(), out)?;
            import(&[&head[..], &[tag, 0, length as u8], &data].concat(), out)?;
            import(&[&head[..], &[tag, 0, data.len() as u8], &other].concat(), out)?;
        }
    }
    Ok(())
}

/// Each field before each other one, alone and in compounds, and compounds with more or fewer
/// structures than they tell, with a second 001 or with a compound at every index.
fn every_order(out: &mut Out) -> Result<()> {
    let singles = &SMALL[..13];
    for (first, second) in
        singles.iter().flat_map(|first| singles.iter().map(move |second| (first, second)))
    {
        for head in ["", "=+01000", "=+02000", "=+03000"] {
            import(&of(&format!("{head}{first}{second}")), out)?;
        }
    }
    for (count, written) in (0..20).flat_map(|count| (0..18).map(move |written| (count, written))) {
        import(&of(&format!("=+{count:02}000{}", "=%5100".repeat(written))), out)?;
    }
    for (first, second) in (0..17).flat_map(|first| (0..=first).map(move |second| (first, second)))
    {
        let mut all = vec!["=%5100"; 15];
        all.insert(first.min(15), "=W00002112345670");
        for other in ["=W00002112345600", "=+01000", "={880000000087000099C"] {
            let mut all = all.clone();
            all.insert(second, other);
            import(&of(&format!("=+16000{}", all[..16].concat())), out)?;
        }
    }
    for twice in SMALL.iter().chain(&["=+01000"]) {
        import(&[of(twice), of(twice)].concat(), out)?;
        import(&[of("=+02000"), of(twice)].concat(), out)?;
        import(&[of(twice), of("=+02000")].concat(), out)?;
    }
    Ok(())
}

/// Flags beside each check, and edges of dates and times, alone and in a compound.
fn every_content(out: &mut Out) -> Result<()> {
    let mut labels = Vec::new();
    for number in (0..37).map(|worth| format!("W000021{:06}", sequence_for(worth))) {
        let own = 60 + check(number.as_bytes());
        labels.extend([59, 60, own - 1, own, own + 1, 97].map(|ff| format!("={number}{ff:02}")));
    }
    for kind in ["=>", "&>", "=*", "&*", "=}", "&}"] {
        let time = if kind.starts_with('&') { "2359" } else { "" };
        for year in CENTURIES {
            labels.extend(DAYS.map(|day| format!("{kind}{year:03}{day:03}{time}")));
        }
    }
    for hour in HOURS {
        labels.extend(MINUTES.map(|minute| format!("&>020366{hour:02}{minute:02}")));
        labels.extend(MINUTES.map(|minute| format!("=(200320240229{hour:02}{minute:02}")));
    }
    for (year, month) in YEARS.iter().flat_map(|year| MONTHS.map(|month| (year, month))) {
        labels.extend(MONTH_DAYS.map(|day| format!("=(1001{year:04}{month:02}{day:02}1330")));
    }
    for label in labels {
        import(&of(&label), out)?;
        import(&of(&format!("=+02007&(N0008{label}")), out)?;
    }
    Ok(())
}

/// Each kind alone, the pairs, compounds of every number, and the longest.
fn messages() -> Vec<Given> {
    let mut all: Vec<Given> =
        KINDS.iter().map(|&kind| Given::new(SINGLE, 0, &[sample(kind)])).collect();
    all.extend([[1, 2], [3, 5]].map(|kinds| Given::new(PAIR, 0, &kinds.map(sample))));
    // All kinds, then others than 001 again.
    let again = KINDS.iter().chain(&KINDS[1..]);
    let mixed: Vec<Entry> = again.take(16).map(|&kind| sample(kind)).collect();
    all.extend((1..=16).map(|number| Given::new(COMPOUND, 123, &mixed[..number])));
    all.push(Given::new(COMPOUND, 0, &[sample(12); 16]));
    all
}

fn every_room(out: &mut Out) -> Result<()> {
    for given in messages() {
        let (record, label) = (needed(&given), given.needed());
        let around = (record - 2..record + 3).chain([0, 1, label - 1, label, label + 1]);
        let most = [MOST_ROOM, MOST_EXPORT - 1, MOST_EXPORT, MOST_EXPORT + 1, 65535];
        for room in around.chain(most) {
            export(&given, room, out)?;
        }
        if record < 60 {
            (0..record).try_for_each(|room| export(&given, room, out))?;
        }
    }
    Ok(())
}

/// Each field of each kind with telling bytes or numbers near its edges, alone and in a compound.
fn every_value(out: &mut Out) -> Result<()> {
    for kind in KINDS.into_iter().chain([OLD_ANTIGENS]) {
        for field in values(kind) {
            let telling: Vec<u64> = match field.2 {
                [] => TELLING.iter().map(|&byte| byte.into()).collect(),
                edges => near(edges).collect(),
            };
            for value in telling {
                let mut entry = sample(kind);
                set(&mut entry, field, value);
                for given in
                    [Given::new(SINGLE, 0, &[entry]), Given::new(COMPOUND, 7, &[sample(2), entry])]
                {
                    export(&given, needed(&given), out)?;
                }
            }
        }
    }
    (0..256).try_for_each(|flags| {
        let given = Given::new(SINGLE, 0, &[flagged(123456, flags)]);
        export(&given, needed(&given), out)
    })
}

/// Every two kinds in every form, with numbers that fit it or not, and every number and bbb.
fn every_shape(out: &mut Out) -> Result<()> {
    let kinds = KINDS.into_iter().chain([OLD_ANTIGENS]);
    let structures: Vec<Entry> = kinds.map(sample).chain([EMPTY]).collect();
    for form in [SINGLE, PAIR, COMPOUND] {
        for (first, second) in
            structures.iter().flat_map(|first| structures.iter().map(move |second| (first, second)))
        {
            for (number, bbb) in [(1, 0), (2, 0), (2, 1)] {
                let given = Given::new(form, bbb, &[*first, *second]);
                export(&Given { number, ..given }, 60, out)?;
            }
        }
    }
    // Any other form is a compound too.
    for form in [SINGLE, PAIR, 255] {
        for (number, bbb) in (0..18)
            .chain(near(&NUMBERS))
            .flat_map(|number| near(&BBBS).map(move |bbb| (number, bbb)))
        {
            let given = Given { number, ..Given::new(form, bbb, &[sample(2); 16]) };
            export(&given, needed(&given), out)?;
        }
    }
    Ok(())
}

/// An entry empty, unlawful, of no kind or a second 001 at each index of compounds, and past them.
fn every_index(out: &mut Out) -> Result<()> {
    let bad = [EMPTY, numbers(8, &[2021, 366]), [0xff; ENTRY], flagged(123456, 71), sample(1)];
    for (number, at) in
        [1, 2, 3, 8, 15, 16].into_iter().flat_map(|number| (0..16).map(move |at| (number, at)))
    {
        for wrong in bad {
            let mut given = Given::new(COMPOUND, 7, &[sample(2); 16]);
            given.number = number;
            given.entries[(number - 1) as usize / 2] = sample(1);
            given.entries[at] = wrong;
            let needed = needed(&given);
            export(&given, needed, out)?;
            export(&given, needed - 1, out)?;
        }
    }
    Ok(())
}

/// The same records each time, imports first.
pub fn fixed(out: &mut Out) -> Result<()> {
    few(out)?;
    every_byte_changed(out)?;
    every_tag(out)?;
    every_length(out)?;
    every_order(out)?;
    every_content(out)?;
    every_room(out)?;
    every_value(out)?;
    every_shape(out)?;
    every_index(out)
}

/// Changes a field, or the fields there are.
fn change(chance: &mut Chance, fields: &mut Vec<Field>) {
    let [at, other] = [(); 2].map(|_| chance.below(fields.len() as u64) as usize);
    let mut text = Vec::new();
    match chance.below(9) {
        0 => fields[at].0 = chance.pick(&[1, 2, 3, 5, 11, 12, 13, 17, FIRST, 31, OLD_ANTIGENS]),
        1 => fields[at].0 = chance.byte(),
        2 => fields[at].1.push(b'0'),
        3 => drop(fields[at].1.pop()),
        4 => fields.swap(at, other),
        5 => fields.insert(at, fields[other].clone()),
        6 => drop(fields.remove(at)),
        7 => fields.insert(at, (FIRST, b"01000".to_vec())),
        _ => {
            any_structure(chance, &mut text);
            fields.insert(at, field(&text));
        }
    }
}

/// A record by chance: mostly of a lawful label, whole, with other fields, or with other bytes.
fn any(chance: &mut Chance) -> Vec<u8> {
    let mut label = Label::any(chance).scan();
    if chance.one_in(4) {
        label.clear();
        super::message(chance, &mut label);
    }
    let mut fields = fields(&label);
    match chance.below(4) {
        0 | 1 => record(&fields),
        2 => {
            change(chance, &mut fields);
            record(&fields)
        }
        _ => {
            let mut record = record(&fields);
            let at = chance.below(record.len() as u64) as usize;
            match chance.below(4) {
                0 => record[at] = chance.pick(LIKELY),
                1 => record.push(chance.pick(LIKELY)),
                _ => damage(chance, &mut record),
            }
            record
        }
    }
}

/// So many records, of accepted messages and of others.
pub fn generated(seed: u64, count: u64, out: &mut Out) -> Result<()> {
    let mut chance = Chance(seed);
    let mut made = 0;
    while made < count {
        if chance.one_in(2) {
            let mut given = message(&mut chance);
            spoil(&mut chance, &mut given);
            let room = room(&mut chance, needed(&given));
            export(&given, room, out)?;
            made += 1;
            continue;
        }
        let record = any(&mut chance);
        if record.len() <= MOST_SCAN {
            import(&record, out)?;
            made += 1;
        }
    }
    Ok(())
}
