//! `desk replay` as a plain program: the yardstick of bench/replay.
//!
//!     rustc -O bench/plain_replay.rs && ./plain_replay EVENT ROUND < COMMANDS
//!
//! It keeps to docs/FORMATS.md in all but fewest moves, which it does not know, and stands on the
//! standard library alone. Nothing of it is proved, and it shares nothing with the crates. Each
//! round keeps its entrants in a vector, and each entrant its best, its average, its key and its
//! place; a change of one entrant goes over the others once and moves their places.

use std::collections::{HashMap, HashSet};
use std::fmt::Write as _;
use std::io::{self, Read, Write};
use std::process::exit;

const MOST_LINES: usize = 65_536;
const MOST_IN_LINE: usize = 10_000;
const MOST_BYTES: usize = 39_387_136;
const MOST_IN_COMMAND: usize = 600;
const MOST_ENTRANTS: usize = 999;

const TIMES: [&str; 10] = [
    "333", "222", "444", "555", "333oh", "clock", "minx", "pyram", "skewb", "sq1",
];

// --- what is read --------------------------------------------------------------------------------

#[derive(Clone, Copy, PartialEq, Eq)]
enum Format {
    Ao5,
    Mo3,
    Bo(usize),
}

impl Format {
    fn attempts(self) -> usize {
        match self {
            Format::Ao5 => 5,
            Format::Mo3 => 3,
            Format::Bo(count) => count,
        }
    }
}

#[derive(Clone, Copy, PartialEq, Eq)]
enum Value {
    Number(u32),
    Dnf,
    Dns,
}

#[derive(Clone, Copy)]
enum Outcome {
    Timed(u32, u32),
    Untimed(Value),
}

#[derive(Clone, Copy)]
enum Advance {
    Final,
    Top(u32),
    Percent(u32),
}

#[derive(Clone, Copy)]
enum Average {
    Number(u32),
    Dnf,
    Missing,
}


fn number(text: &str, low: u32, high: u32) -> Option<u32> {
    let digits = text.bytes().all(|byte| byte.is_ascii_digit());
    if text.is_empty() || !digits || text.len() > 9 || text.len() > 1 && text.starts_with('0') {
        return None;
    }
    let number = text.parse().ok()?;
    (low <= number && number <= high).then_some(number)
}

fn is_event(text: &str) -> bool {
    let others = ["666", "777", "333bf", "333fm", "444bf", "555bf"];
    TIMES.contains(&text) || others.contains(&text)
}

fn is_name(text: &str) -> bool {
    let plain = text.bytes().all(|byte| byte >= 32 && byte != 127);
    let spaced = text.starts_with(' ') || text.ends_with(' ') || text.contains("  ");
    !text.is_empty() && text.len() <= 80 && plain && !spaced
}

fn format(text: &str) -> Option<Format> {
    Some(match text {
        "ao5" => Format::Ao5,
        "mo3" => Format::Mo3,
        "bo1" => Format::Bo(1),
        "bo2" => Format::Bo(2),
        "bo3" => Format::Bo(3),
        _ => return None,
    })
}

fn cutoff(text: &str) -> Option<Option<(usize, u32)>> {
    if text == "-" {
        return Some(None);
    }
    let (count, below) = text.split_once(':')?;
    Some(Some((number(count, 1, 4)? as usize, number(below, 1, 360_000)?)))
}

fn limit(text: &str) -> Option<Option<u32>> {
    if text == "-" {
        return Some(None);
    }
    number(text, 1, 360_000).map(Some)
}

fn advance(text: &str) -> Option<Advance> {
    if text == "final" {
        return Some(Advance::Final);
    }
    match text.split_once(':')? {
        ("top", most) => number(most, 1, 999).map(Advance::Top),
        ("pct", most) => number(most, 1, 75).map(Advance::Percent),
        _ => None,
    }
}

fn outcome(text: &str) -> Option<Outcome> {
    match text {
        "DNF" => return Some(Outcome::Untimed(Value::Dnf)),
        "DNS" => return Some(Outcome::Untimed(Value::Dns)),
        _ => {}
    }
    let (time, penalties) = text.strip_prefix("T:")?.split_once(':')?;
    Some(Outcome::Timed(number(time, 1, 999_999)?, number(penalties, 0, 9)?))
}

// --- rounds --------------------------------------------------------------------------------------

struct Entrant {
    number: u16,
    done: usize,
    values: [Value; 5],
    best: Value,
    average: Average,
    /// The number that ranks, and the one that ranks equal ones, together: the less, the better.
    key: u64,
    place: u16,
}

struct Round {
    format: Format,
    cutoff: Option<(usize, u32)>,
    limit: u32,
    advance: Advance,
    settings: String,
    entrants: Vec<Entrant>,
    indexes: HashMap<u16, usize>,
    started: u32,
    unfinished: u32,
    closed: bool,
}

fn best(values: &[Value]) -> Value {
    let least = values.iter().filter_map(|value| match value {
        Value::Number(number) => Some(*number),
        _ => None,
    });
    match least.min() {
        Some(number) => Value::Number(number),
        None if values.contains(&Value::Dnf) => Value::Dnf,
        None => Value::Dns,
    }
}

fn third(sum: u32) -> u32 {
    if sum > 180_000 {
        (sum + 150) / 300 * 100
    } else {
        (2 * sum + 3) / 6
    }
}

fn average(format: Format, values: &[Value]) -> Average {
    if matches!(format, Format::Bo(_)) || values.len() < format.attempts() {
        return Average::Missing;
    }
    let (mut count, mut sum, mut least, mut greatest) = (0, 0, u32::MAX, 0);
    for value in values {
        if let Value::Number(number) = *value {
            count += 1;
            sum += number;
            least = least.min(number);
            greatest = greatest.max(number);
        }
    }
    match (format, count) {
        (Format::Ao5, 5) => Average::Number(third(sum - least - greatest)),
        (Format::Ao5, 4) => Average::Number(third(sum - least)),
        (Format::Mo3, 3) => Average::Number(third(sum)),
        _ => Average::Dnf,
    }
}

fn has_started(values: &[Value]) -> bool {
    values.iter().any(|value| *value != Value::Dns)
}

impl Round {
    fn meets(&self, values: &[Value]) -> bool {
        self.cutoff.is_none_or(|(count, below)| {
            let first = values.iter().take(count);
            first.into_iter().any(|value| matches!(value, Value::Number(n) if *n < below))
        })
    }

    fn allotted(&self, values: &[Value]) -> usize {
        match self.cutoff {
            Some((count, _)) if !self.meets(values) => count,
            _ => self.format.attempts(),
        }
    }

    fn key(&self, best: Value, average: Average) -> u64 {
        let best = match best {
            Value::Number(number) => number,
            _ => u32::MAX,
        };
        let average = match average {
            Average::Number(number) => number,
            _ => u32::MAX,
        };
        match self.format {
            Format::Bo(_) => u64::from(best),
            _ => u64::from(average) << 32 | u64::from(best),
        }
    }

    /// Nobody is worse than who has no attempt.
    fn enter(&mut self, number: u16) {
        let key = self.key(Value::Dns, Average::Missing);
        let better = self.entrants.iter().filter(|other| other.key < key).count();
        self.indexes.insert(number, self.entrants.len());
        self.entrants.push(Entrant {
            number,
            done: 0,
            values: [Value::Dns; 5],
            best: Value::Dns,
            average: Average::Missing,
            key,
            place: 1 + better as u16,
        });
        self.unfinished += 1;
    }

    /// Gives an entrant other values, and moves the places.
    fn replace(&mut self, index: usize, done: usize, values: [Value; 5]) {
        let (was, is) = (self.entrants[index].done, done);
        let before = self.entrants[index].values;
        self.started -= u32::from(has_started(&before[..was]));
        self.started += u32::from(has_started(&values[..is]));
        self.unfinished -= u32::from(was < self.allotted(&before[..was]));
        self.unfinished += u32::from(is < self.allotted(&values[..is]));
        let best = best(&values[..is]);
        let average = average(self.format, &values[..is]);
        let (old, new) = (self.entrants[index].key, self.key(best, average));
        let mut place = 1;
        for other in &mut self.entrants {
            place += u16::from(other.key < new);
            other.place -= u16::from(old < other.key);
            other.place += u16::from(new < other.key);
        }
        place -= u16::from(old < new);
        let number = self.entrants[index].number;
        self.entrants[index] = Entrant { number, done, values, best, average, key: new, place };
    }

    fn value(&self, outcome: Outcome) -> Value {
        match outcome {
            Outcome::Untimed(value) => value,
            Outcome::Timed(time, _) if time >= self.limit => Value::Dnf,
            Outcome::Timed(time, penalties) => match time + 200 * penalties {
                total @ 0..=60_000 => Value::Number(total),
                total => Value::Number((total + 50) / 100 * 100),
            },
        }
    }

    fn standings(&self) -> Vec<&Entrant> {
        let mut order: Vec<_> = self.entrants.iter().collect();
        order.sort_by_key(|entrant| entrant.place);
        order
    }

    /// The numbers of those who go on, in order of standings.
    fn advancing(&self) -> Vec<u16> {
        let order = self.standings();
        let started = |entrant: &&Entrant| has_started(&entrant.values[..entrant.done]);
        let mut keys: Vec<_> =
            self.entrants.iter().filter(started).map(|entrant| entrant.key).collect();
        keys.sort_unstable();
        let wanted = match self.advance {
            Advance::Final => 0,
            Advance::Top(most) => most,
            Advance::Percent(percent) => self.started * percent / 100,
        };
        let most = wanted.min(3 * self.started / 4) as usize;
        let goes_on = |entrant: &&&Entrant| {
            matches!(entrant.best, Value::Number(_))
                && keys.partition_point(|key| *key <= entrant.key) <= most
        };
        order.iter().filter(goes_on).map(|entrant| entrant.number).collect()
    }
}

// --- the competition -----------------------------------------------------------------------------

#[derive(Default)]
struct Meet<'a> {
    names: HashMap<u16, &'a str>,
    taken: HashSet<&'a str>,
    rounds: HashMap<(&'a str, u32), Round>,
}

fn later_rounds(competitors: u32) -> u32 {
    [7, 15, 99].iter().filter(|most| competitors > **most).count() as u32
}

fn formats(event: &str) -> &'static [Format] {
    const TIMED: [Format; 4] = [Format::Ao5, Format::Bo(1), Format::Bo(2), Format::Bo(3)];
    const MEANS: [Format; 3] = [Format::Mo3, Format::Bo(1), Format::Bo(2)];
    if TIMES.contains(&event) {
        &TIMED
    } else if event == "666" || event == "777" {
        &MEANS
    } else {
        &TIMED[1..]
    }
}

type Done = Result<(), &'static str>;

impl<'a> Meet<'a> {
    fn apply(&mut self, line: &'a [u8]) -> Done {
        if line.len() > MOST_IN_COMMAND {
            return Err("Unread");
        }
        let text = std::str::from_utf8(line).map_err(|_| "Unread")?;
        let (word, rest) = text.split_once(' ').ok_or("Unread")?;
        match word {
            "REG" => self.register(rest),
            "OPEN" => self.open(rest),
            "ENT" => self.enter(rest),
            "ATT" | "COR" => self.attempt(word == "COR", rest),
            "STR" => self.strike(rest),
            "ADV" => self.change(rest),
            "CLOSE" => self.close(rest),
            _ => Err("Unread"),
        }
    }

    fn register(&mut self, rest: &'a str) -> Done {
        let (who, name) = rest.split_once(' ').ok_or("Unread")?;
        let who = number(who, 1, 9999).ok_or("Unread")? as u16;
        if !is_name(name) {
            return Err("Unread");
        }
        if self.names.contains_key(&who) {
            return Err("Already");
        }
        if !self.taken.insert(name) {
            return Err("NameTaken");
        }
        self.names.insert(who, name);
        Ok(())
    }

    fn open(&mut self, rest: &'a str) -> Done {
        let fields: Vec<_> = rest.split(' ').collect();
        let &[event, which, form, cut, time, wish] = &fields[..] else {
            return Err("Unread");
        };
        let which = number(which, 1, 4).ok_or("Unread")?;
        let settings = format!("{form} {cut} {time} {wish}");
        let form = format(form).ok_or("Unread")?;
        let cutoff = cutoff(cut).ok_or("Unread")?;
        let limit = limit(time).ok_or("Unread")?;
        let advance = advance(wish).ok_or("Unread")?;
        if !is_event(event) {
            return Err("Unread");
        }
        if self.rounds.contains_key(&(event, which)) {
            return Err("RoundOpen");
        }
        let mut entrants = Vec::new();
        if which > 1 {
            let before = self.rounds.get(&(event, which - 1)).ok_or("RoundUnknown")?;
            if !before.closed || matches!(before.advance, Advance::Final) {
                return Err("RoundUnknown");
            }
            entrants = before.advancing();
        }
        if !formats(event).contains(&form) {
            return Err("FormatNotAllowed");
        }
        if cutoff.is_some_and(|(count, _)| count >= form.attempts()) {
            return Err("CutoffNotAllowed");
        }
        let mut round = Round {
            format: form,
            cutoff,
            limit: limit.ok_or("LimitNotAllowed")?,
            advance,
            settings,
            entrants: Vec::new(),
            indexes: HashMap::new(),
            started: 0,
            unfinished: 0,
            closed: false,
        };
        for number in entrants {
            round.enter(number);
        }
        self.rounds.insert((event, which), round);
        Ok(())
    }

    fn enter(&mut self, rest: &'a str) -> Done {
        let (event, who) = rest.split_once(' ').ok_or("Unread")?;
        let who = number(who, 1, 9999).ok_or("Unread")? as u16;
        if !is_event(event) {
            return Err("Unread");
        }
        if !self.names.contains_key(&who) {
            return Err("UnknownCompetitor");
        }
        let round = self.rounds.get_mut(&(event, 1)).ok_or("RoundUnknown")?;
        if round.closed {
            return Err("Closed");
        }
        if round.indexes.contains_key(&who) {
            return Err("Already");
        }
        if round.entrants.len() == MOST_ENTRANTS {
            return Err("Full");
        }
        round.enter(who);
        Ok(())
    }

    fn attempt(&mut self, correct: bool, rest: &'a str) -> Done {
        let mut fields = rest.splitn(5, ' ');
        let mut next = || fields.next().ok_or("Unread");
        let (event, which, count, who, out) = (next()?, next()?, next()?, next()?, next()?);
        let which = number(which, 1, 4).ok_or("Unread")?;
        let count = number(count, 1, 5).ok_or("Unread")? as usize;
        let who = number(who, 1, 9999).ok_or("Unread")? as u16;
        let out = outcome(out).ok_or("Unread")?;
        if !is_event(event) {
            return Err("Unread");
        }
        if !self.names.contains_key(&who) {
            return Err("UnknownCompetitor");
        }
        let round = self.rounds.get_mut(&(event, which)).ok_or("RoundUnknown")?;
        if round.closed {
            return Err("Closed");
        }
        let index = *round.indexes.get(&who).ok_or("NotEntered")?;
        let entrant = &round.entrants[index];
        let (done, mut values) = (entrant.done, entrant.values);
        let value = round.value(out);
        if correct {
            if count > done {
                return Err("NoSuchAttempt");
            }
            values[count - 1] = value;
            if round.cutoff.is_some_and(|(first, _)| done > first) && !round.meets(&values[..done])
            {
                return Err("CutoffLost");
            }
            round.replace(index, done, values);
        } else {
            if count != done + 1 {
                return Err("OutOfOrder");
            }
            if done == round.allotted(&values[..done]) {
                return Err("NoMoreAttempts");
            }
            values[done] = value;
            round.replace(index, done + 1, values);
        }
        Ok(())
    }

    fn strike(&mut self, rest: &'a str) -> Done {
        let fields: Vec<_> = rest.split(' ').collect();
        let &[event, which, who] = &fields[..] else {
            return Err("Unread");
        };
        let which = number(which, 1, 4).ok_or("Unread")?;
        let who = number(who, 1, 9999).ok_or("Unread")? as u16;
        if !is_event(event) {
            return Err("Unread");
        }
        if !self.names.contains_key(&who) {
            return Err("UnknownCompetitor");
        }
        let round = self.rounds.get_mut(&(event, which)).ok_or("RoundUnknown")?;
        if round.closed {
            return Err("Closed");
        }
        let index = *round.indexes.get(&who).ok_or("NotEntered")?;
        let entrant = &round.entrants[index];
        let (done, values) = (entrant.done, entrant.values);
        if done == 0 {
            return Err("NoSuchAttempt");
        }
        round.replace(index, done - 1, values);
        Ok(())
    }

    fn change(&mut self, rest: &'a str) -> Done {
        let fields: Vec<_> = rest.split(' ').collect();
        let &[event, which, wish] = &fields[..] else {
            return Err("Unread");
        };
        let which = number(which, 1, 4).ok_or("Unread")?;
        let advance = advance(wish).ok_or("Unread")?;
        if !is_event(event) {
            return Err("Unread");
        }
        let round = self.rounds.get_mut(&(event, which)).ok_or("RoundUnknown")?;
        if round.closed {
            return Err("Closed");
        }
        round.advance = advance;
        let end = round.settings.rfind(' ').unwrap_or(0);
        round.settings.truncate(end + 1);
        round.settings.push_str(wish);
        Ok(())
    }

    fn close(&mut self, rest: &'a str) -> Done {
        let (event, which) = rest.split_once(' ').ok_or("Unread")?;
        let which = number(which, 1, 4).ok_or("Unread")?;
        if !is_event(event) {
            return Err("Unread");
        }
        let round = self.rounds.get(&(event, which)).ok_or("RoundUnknown")?;
        if round.closed {
            return Err("Closed");
        }
        if round.unfinished > 0 {
            return Err("Unfinished");
        }
        let behind = (1..=which)
            .any(|j| which + 1 - j > later_rounds(self.rounds[&(event, j)].started));
        if !matches!(round.advance, Advance::Final) && behind {
            return Err("RoundsRule");
        }
        self.rounds.get_mut(&(event, which)).ok_or("RoundUnknown")?.closed = true;
        Ok(())
    }
}

// --- the sheet -----------------------------------------------------------------------------------

fn print_time(cell: &mut String, number: u32) {
    let (minutes, seconds, hundredths) = (number / 6_000, number / 100 % 60, number % 100);
    let _ = match minutes {
        0 => write!(cell, "{seconds}.{hundredths:02}"),
        _ => write!(cell, "{minutes}:{seconds:02}.{hundredths:02}"),
    };
}

fn print_value(cell: &mut String, value: Value) {
    match value {
        Value::Number(number) => print_time(cell, number),
        Value::Dnf => cell.push_str("DNF"),
        Value::Dns => cell.push_str("DNS"),
    }
}

fn print_cell(out: &mut String, cell: &mut String, print: impl FnOnce(&mut String)) {
    cell.clear();
    print(cell);
    let _ = write!(out, " {cell:>9}");
}

fn sheet(out: &mut String, meet: &Meet, event: &str, which: u32, round: &Round, lines: usize) {
    let state = if round.closed { "closed" } else { "open" };
    let settings: Vec<_> = round.settings.split(' ').collect();
    let _ = writeln!(out, "{event} round {which} {} {state} position {lines}", settings[0]);
    let _ = writeln!(out, "cutoff {} limit {} advance {}", settings[1], settings[2], settings[3]);
    let going: HashSet<u16> = match round.closed {
        true => round.advancing().into_iter().collect(),
        false => HashSet::new(),
    };
    let mut cell = String::new();
    for entrant in round.standings() {
        let _ = write!(out, "{:>3}", entrant.place);
        print_cell(out, &mut cell, |cell| match entrant.average {
            Average::Number(number) => print_time(cell, number),
            Average::Dnf => cell.push_str("DNF"),
            Average::Missing => cell.push('-'),
        });
        print_cell(out, &mut cell, |cell| match entrant.done {
            0 => cell.push('-'),
            _ => print_value(cell, entrant.best),
        });
        for index in 0..round.format.attempts() {
            print_cell(out, &mut cell, |cell| match index < entrant.done {
                true => print_value(cell, entrant.values[index]),
                false => cell.push('-'),
            });
        }
        let mark = if going.contains(&entrant.number) { 'Q' } else { '-' };
        let name = meet.names[&entrant.number];
        let _ = writeln!(out, " {:>4} {mark} {name}", entrant.number);
    }
}

// --- the run -------------------------------------------------------------------------------------

/// The lines, and whether a limit is passed.
fn lines_of(data: &[u8]) -> (Vec<&[u8]>, bool) {
    let mut lines = Vec::new();
    let mut start = 0;
    while start < data.len() {
        let end = data[start..].iter().position(|byte| *byte == b'\n');
        let len = end.unwrap_or(data.len() - start);
        let stop = start + len + usize::from(end.is_some());
        if lines.len() == MOST_LINES || len > MOST_IN_LINE || stop > MOST_BYTES {
            return (lines, true);
        }
        lines.push(&data[start..start + len]);
        start = stop;
    }
    (lines, false)
}

fn main() -> io::Result<()> {
    let words: Vec<String> = std::env::args().collect();
    let [_, event, which] = &words[..] else {
        eprintln!("the words are EVENT ROUND");
        exit(2);
    };
    let which = number(which, 1, 4).unwrap_or(1);
    let mut data = Vec::new();
    io::stdin().lock().read_to_end(&mut data)?;
    let (lines, too_long) = lines_of(&data);
    let mut meet = Meet::default();
    let mut out = String::new();
    for (index, line) in lines.iter().enumerate() {
        if let Err(code) = meet.apply(line) {
            let _ = writeln!(out, "refused {} {code}", index + 1);
        }
    }
    let round = meet.rounds.get(&(event.as_str(), which));
    if let (Some(round), false) = (round, too_long) {
        sheet(&mut out, &meet, event, which, round, lines.len());
    }
    io::stdout().lock().write_all(out.as_bytes())?;
    if too_long || round.is_none() {
        eprintln!("{}", if too_long { "input too long" } else { "no such round" });
        exit(3);
    }
    Ok(())
}
