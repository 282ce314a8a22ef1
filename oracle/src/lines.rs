//! The lines of `replay`: cut from bytes, read into calls, answered with the
//! whole state. The reader and the printer are shared by all drivers here; the
//! port has its own.

use std::io::{Read, Result, Write};

use crate::calls::{Answer, Call, Choice, Engine, KeepAlive, Request, Settings, Single};
use crate::state::{Log, Open, Path, Subscription, Table};

/// The most bytes that a line may have, its CRLF not counted.
pub const LONGEST: usize = 4_096;

/// The refusal of a line that has no meaning.
pub const BAD_LINE: u8 = 8;

const CHUNK: usize = 1 << 16;

/// Answers every line of the input, one line for each, until the input ends.
pub fn replay(engine: &mut impl Engine, input: impl Read, mut output: impl Write) -> Result<()> {
    let mut text = Vec::with_capacity(2 * CHUNK);
    let mut number = 0;
    for_each_line(input, LONGEST, |line| {
        number += 1;
        let answer = line.and_then(read_call).map(|call| engine.call(&call));
        let answer = answer.unwrap_or(Err(BAD_LINE));
        print_answer(&mut text, number, &answer);
        text.push(b' ');
        print_state(&mut text, &engine.state());
        text.extend_from_slice(b"\r\n");
        if text.len() >= CHUNK {
            output.write_all(&text)?;
            text.clear();
        }
        Ok(true)
    })?;
    output.write_all(&text)?;
    output.flush()
}

/// Cuts lines at CRLF and nowhere else. A line above the limit comes as none. It
/// stops early when the step says no.
pub fn for_each_line(
    mut input: impl Read,
    longest: usize,
    mut step: impl FnMut(Option<&[u8]>) -> Result<bool>,
) -> Result<()> {
    let mut cutter = Cutter::new(longest);
    let mut chunk = vec![0; CHUNK];
    loop {
        let size = input.read(&mut chunk)?;
        if size == 0 {
            break;
        }
        for byte in &chunk[..size] {
            if cutter.ends_line(*byte) {
                if !step(cutter.line())? {
                    return Ok(());
                }
                cutter.line.clear();
            }
        }
    }
    if cutter.end_of_input() {
        step(cutter.line())?;
    }
    Ok(())
}

/// The line read so far; one byte more than the limit is kept, to know it is too long.
struct Cutter {
    longest: usize,
    line: Vec<u8>,
    carriage_return: bool,
}

impl Cutter {
    fn new(longest: usize) -> Self {
        Cutter {
            longest,
            line: Vec::new(),
            carriage_return: false,
        }
    }

    /// Takes a byte; yes if a CRLF is complete with it.
    fn ends_line(&mut self, byte: u8) -> bool {
        let ended = self.carriage_return && byte == b'\n';
        if self.carriage_return && !ended {
            self.keep(b'\r');
        }
        self.carriage_return = byte == b'\r';
        if !ended && !self.carriage_return {
            self.keep(byte);
        }
        ended
    }

    /// Whether a last line without CRLF stands there.
    fn end_of_input(&mut self) -> bool {
        if self.carriage_return {
            self.keep(b'\r');
        }
        !self.line.is_empty()
    }

    fn keep(&mut self, byte: u8) {
        if self.line.len() <= self.longest {
            self.line.push(byte);
        }
    }

    fn line(&self) -> Option<&[u8]> {
        (self.line.len() <= self.longest).then_some(&self.line)
    }
}

// Reading

/// The fields of a line after its word; each is taken in turn.
struct Fields<'a> {
    rest: Option<&'a [u8]>,
}

impl<'a> Fields<'a> {
    fn of(line: &'a [u8]) -> Self {
        Fields { rest: Some(line) }
    }

    fn text(&mut self) -> Option<&'a [u8]> {
        let rest = self.rest?;
        match rest.iter().position(|byte| *byte == b',') {
            Some(comma) => {
                self.rest = Some(&rest[comma + 1..]);
                Some(&rest[..comma])
            }
            None => {
                self.rest = None;
                Some(rest)
            }
        }
    }

    fn number<T: TryFrom<u64>>(&mut self) -> Option<T> {
        decimal(self.text()?)?.try_into().ok()
    }

    fn flag(&mut self) -> Option<bool> {
        match self.text()? {
            b"0" => Some(false),
            b"1" => Some(true),
            _ => None,
        }
    }

    fn keep_alive(&mut self) -> Option<KeepAlive> {
        let icd = self.flag()?;
        Some(if icd {
            KeepAlive::Icd
        } else {
            KeepAlive::Default
        })
    }

    fn path(&mut self) -> Option<Path> {
        Some(Path {
            endpoint: self.number()?,
            cluster: self.number()?,
            attribute: self.number()?,
        })
    }

    fn request(&mut self) -> Option<Request> {
        Some(Request {
            fabric: self.number()?,
            peer: self.number()?,
            min: self.number()?,
            max: self.number()?,
            events: self.number()?,
            rx: self.number()?,
        })
    }

    fn settings(&mut self) -> Option<Settings> {
        Some(Settings {
            now: self.number()?,
            events: self.number()?,
            keep_alive: self.keep_alive()?,
            all: self.flag()?,
        })
    }

    fn single(&mut self) -> Option<Single> {
        Some(Single {
            min: self.number()?,
            max: self.number()?,
            reported: self.number()?,
            retry: self.number()?,
            fails: self.number()?,
            seen: self.number()?,
            seen_events: self.number()?,
        })
    }

    fn choice(&mut self) -> Option<Choice> {
        match self.text()? {
            b"all" => Some(Choice::All),
            b"fabric" => Some(Choice::Fabric(self.number()?)),
            b"peer" => Some(Choice::Peer(self.number()?, self.number()?)),
            b"id" => Some(Choice::Id(self.number()?)),
            b"expired" => Some(Choice::Expired(self.number()?)),
            _ => None,
        }
    }

    fn numbers_to_the_end(&mut self) -> Option<Vec<u8>> {
        let mut numbers = Vec::new();
        while self.rest.is_some() {
            numbers.push(self.number()?);
        }
        Some(numbers)
    }
}

/// Decimal digits without sign or leading zero, within 64 bits.
fn decimal(text: &[u8]) -> Option<u64> {
    if text.is_empty() || (text[0] == b'0' && text.len() > 1) {
        return None;
    }
    let mut value = 0_u64;
    for byte in text {
        let digit = byte.is_ascii_digit().then(|| byte - b'0')?;
        value = value.checked_mul(10)?.checked_add(u64::from(digit))?;
    }
    Some(value)
}

/// The call of a line, or none for a line of any other shape.
pub fn read_call(line: &[u8]) -> Option<Call> {
    let mut fields = Fields::of(line);
    let word = fields.text()?;
    let call = read_table_call(word, &mut fields)?;
    fields.rest.is_none().then_some(call)
}

fn read_table_call(word: &[u8], fields: &mut Fields) -> Option<Call> {
    Some(match word {
        b"new" => Call::New {
            capacity: fields.number()?,
        },
        b"add" => Call::Add {
            now: fields.number()?,
            request: fields.request()?,
        },
        b"resume" => Call::Resume {
            id: fields.number()?,
            request: fields.request()?,
        },
        b"note" => Call::Note(fields.path()?),
        b"report" => Call::Report(fields.settings()?),
        b"done" => Call::Done {
            id: fields.number()?,
            outcome: fields.number()?,
        },
        b"remove" => Call::Remove {
            choice: fields.choice()?,
            reason: fields.number()?,
        },
        b"clear" => Call::Clear,
        b"purge" => Call::Purge,
        b"attr" => Call::Attr {
            id: fields.number()?,
            path: fields.path()?,
        },
        b"sendempty" => Call::SendEmpty {
            id: fields.number()?,
            keep_alive: fields.keep_alive()?,
        },
        b"wake" => Call::Wake {
            events: fields.number()?,
            keep_alive: fields.keep_alive()?,
        },
        b"any" => Call::Any {
            now: fields.number()?,
            events: fields.number()?,
            keep_alive: fields.keep_alive()?,
        },
        b"keepalive" => Call::NextKeepAlive,
        b"stats" => Call::Stats {
            fabric: fields.number()?,
        },
        b"has" => Call::Has {
            fabric: fields.number()?,
            peer: fields.number()?,
        },
        b"round" => Call::Round {
            settings: fields.settings()?,
            slots: fields.number()?,
            outcomes: fields.numbers_to_the_end()?,
        },
        _ => return read_lower_call(word, fields),
    })
}

fn read_lower_call(word: &[u8], fields: &mut Fields) -> Option<Call> {
    Some(match word {
        b"backoff" => Call::Backoff {
            fails: fields.number()?,
            max: fields.number()?,
        },
        b"dueafter" => Call::DueAfter {
            max: fields.number()?,
            keep_alive: fields.keep_alive()?,
        },
        b"icdmax" => Call::IcdMax {
            idle: fields.number()?,
            floor: fields.number()?,
        },
        b"submax" => Call::SubMax {
            request: fields.number()?,
            floor: fields.number()?,
            lower: fields.number()?,
            upper: fields.number()?,
        },
        b"expired" => Call::Expired {
            reported: fields.number()?,
            max: fields.number()?,
            now: fields.number()?,
        },
        b"single" => Call::Single {
            single: fields.single()?,
            settings: fields.settings()?,
        },
        b"changed" => Call::Changed {
            path: fields.path()?,
            since: fields.number()?,
        },
        b"anysince" => Call::AnySince {
            since: fields.number()?,
        },
        b"setidentity" => Call::SetIdentity {
            next: fields.number()?,
        },
        b"logpurge" => Call::LogPurge {
            upto: fields.number()?,
        },
        b"watermark" => Call::Watermark,
        b"logempty" => Call::LogEmpty,
        _ => return None,
    })
}

// Printing

/// Line number, code and values.
pub fn print_answer(text: &mut Vec<u8>, number: u64, answer: &Answer) {
    print_number(text, number);
    text.push(b',');
    match answer {
        Err(code) => print_number(text, u64::from(*code)),
        Ok(values) => {
            text.push(b'0');
            for value in values {
                text.push(b',');
                print_number(text, *value);
            }
        }
    }
}

pub fn print_number(text: &mut Vec<u8>, mut number: u64) {
    let mut digits = [0; 20];
    let mut start = digits.len();
    loop {
        start -= 1;
        digits[start] = b'0' + (number % 10) as u8;
        number /= 10;
        if number == 0 {
            break;
        }
    }
    text.extend_from_slice(&digits[start..]);
}

fn print_state(text: &mut Vec<u8>, table: &Table) {
    let numbers: [(&[u8], u64); 5] = [
        (b"cap=", u64::from(table.capacity)),
        (b" count=", table.counted),
        (b" id=", u64::from(table.next_id)),
        (b" identity=", table.log.next),
        (b" cancel=", u64::from(table.cancel)),
    ];
    for (name, number) in numbers {
        text.extend_from_slice(name);
        print_number(text, number);
    }
    text.extend_from_slice(b" log=");
    print_log(text, &table.log);
    text.extend_from_slice(b" stored=");
    print_list(text, &table.stored, print_subscription);
    text.extend_from_slice(b" report=");
    print_list(text, &table.report, print_open);
    text.extend_from_slice(b" primings=");
    let mut primings: Vec<&Open> = table.primings.iter().collect();
    primings.sort_by_key(|open| open.subscription.id);
    print_list(text, primings, print_open);
}

fn print_list<T>(
    text: &mut Vec<u8>,
    list: impl IntoIterator<Item = T>,
    print: fn(&mut Vec<u8>, T),
) {
    for (place, item) in list.into_iter().enumerate() {
        if place > 0 {
            text.push(b';');
        }
        print(text, item);
    }
}

fn print_numbers(text: &mut Vec<u8>, numbers: &[u64]) {
    for (place, number) in numbers.iter().enumerate() {
        if place > 0 {
            text.push(b':');
        }
        print_number(text, *number);
    }
}

fn print_log(text: &mut Vec<u8>, log: &Log) {
    print_list(text, &log.entries, |text, entry| {
        let path = &entry.path;
        let fields = [
            u64::from(path.endpoint),
            u64::from(path.cluster),
            u64::from(path.attribute),
            entry.identity,
        ];
        print_numbers(text, &fields);
    });
}

fn print_subscription(text: &mut Vec<u8>, sub: &Subscription) {
    let fields = [
        u64::from(sub.id),
        u64::from(sub.fabric),
        sub.peer,
        u64::from(sub.min),
        u64::from(sub.max),
        sub.reported,
        sub.retry,
        u64::from(sub.fails),
        sub.seen,
        sub.seen_events,
        u64::from(sub.rx),
    ];
    print_numbers(text, &fields);
}

fn print_open(text: &mut Vec<u8>, open: &Open) {
    print_subscription(text, &open.subscription);
    text.push(b'@');
    print_numbers(text, &[open.watermark, open.events, open.now]);
}
