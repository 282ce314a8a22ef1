//! Feeds the same lines to two drivers, finds the first answer or state that
//! differs and shrinks the history that shows it. It does not know which of the
//! two is right.

use std::collections::BTreeMap;
use std::fmt;
use std::io::{Read, Write};
use std::panic::{catch_unwind, set_hook, take_hook, AssertUnwindSafe};
use std::path::PathBuf;
use std::process::{Command, Stdio};

use crate::calls::{Call, Engine};
use crate::histories::{Kind, Language};
use crate::lines::{for_each_line, read_call, replay, LONGEST};
use crate::original::machine::Original;
use crate::second::Second;
use crate::trace::{is_traced, trace};
use crate::written::kind_of;

/// Whoever answers lines.
#[derive(Clone, Debug)]
pub enum Driver {
    Original,
    Second,
    Program {
        path: PathBuf,
        arguments: Vec<String>,
    },
}

impl fmt::Display for Driver {
    fn fmt(&self, text: &mut fmt::Formatter) -> fmt::Result {
        match self {
            Driver::Original => write!(text, "the original"),
            Driver::Second => write!(text, "the second implementation"),
            Driver::Program { path, .. } => write!(text, "{}", path.display()),
        }
    }
}

/// All that a driver answered, and whether it ended as it should.
pub struct Output {
    pub text: Vec<u8>,
    pub broke: bool,
}

impl Driver {
    pub fn run(&self, language: Language, input: &[u8]) -> Output {
        match self {
            Driver::Original => run_engine(Original::new, language, input),
            Driver::Second => run_engine(Second::new, language, input),
            Driver::Program { path, arguments } => {
                run_program(Command::new(path).args(arguments), input)
            }
        }
    }
}

fn run_engine<E: Engine>(make: fn() -> E, language: Language, input: &[u8]) -> Output {
    let mut text = Vec::new();
    // That it broke is told by the comparison; shrinking would repeat the cry.
    let hook = take_hook();
    set_hook(Box::new(|_| {}));
    let ended = catch_unwind(AssertUnwindSafe(|| match language {
        Language::Replay => replay(&mut make(), input, &mut text),
        Language::Trace => trace(&mut make(), input, &mut text),
    }));
    set_hook(hook);
    let broke = !matches!(ended, Ok(Ok(())));
    Output { text, broke }
}

/// One process for one input: it may answer only when its input has ended.
fn run_program(command: &mut Command, input: &[u8]) -> Output {
    let mut child = command
        .stdin(Stdio::piped())
        .stdout(Stdio::piped())
        .stderr(Stdio::null())
        .spawn()
        .unwrap_or_else(|error| panic!("{command:?} does not start: {error}"));
    let mut to_child = child.stdin.take().expect("piped");
    let mut from_child = child.stdout.take().expect("piped");
    let mut text = Vec::new();
    std::thread::scope(|scope| {
        // A program that ends early closes the pipe; its answers tell that.
        scope.spawn(move || to_child.write_all(input));
        from_child.read_to_end(&mut text)
    })
    .expect("a pipe is read");
    let status = child.wait().expect("it was started");
    Output {
        text,
        broke: !status.success(),
    }
}

/// The lines of an input, cut as the drivers cut them, CRLF included.
pub fn cut(text: &[u8]) -> Vec<&[u8]> {
    let mut lines = Vec::new();
    let mut start = 0;
    for end in 2..=text.len() {
        if end - start >= 2 && &text[end - 2..end] == b"\r\n" {
            lines.push(&text[start..end]);
            start = end;
        }
    }
    if start < text.len() {
        lines.push(&text[start..]);
    }
    lines
}

/// The place of the first line that the two answer differently. Where one of
/// them broke, that is the last line: how far it came is not known.
pub fn first_difference(left: &Output, right: &Output, lines: usize) -> Option<usize> {
    if left.broke || right.broke {
        return Some(lines.saturating_sub(1));
    }
    if left.text == right.text {
        return None;
    }
    let place = first_unequal(&cut(&left.text), &cut(&right.text));
    // An answer too many comes after the last line.
    Some(place.min(lines.saturating_sub(1)))
}

/// The first place where the two lists are not the same.
fn first_unequal(left: &[&[u8]], right: &[&[u8]]) -> usize {
    let mut places = 0..left.len().max(right.len());
    let unequal = places.find(|place| left.get(*place) != right.get(*place));
    unequal.unwrap_or(left.len())
}

/// A history that cannot be shrunk, as that of a driver that answers only so many
/// lines, is not tried for ever.
const MOST_TRIES: u32 = 1_500;

/// Two drivers side by side.
pub struct Pair {
    pub left: Driver,
    pub right: Driver,
}

/// A history on which the two differ in its last line.
pub struct Difference {
    pub history: Vec<Vec<u8>>,
    pub left: Vec<u8>,
    pub right: Vec<u8>,
}

impl Pair {
    /// Compares on one input and counts its lines, up to the first difference.
    pub fn compare(
        &self,
        language: Language,
        kind: Kind,
        input: &[u8],
        tally: &mut Tally,
    ) -> Option<Difference> {
        let (left, right) = self.run(language, input);
        let lines = cut(input);
        let place = first_difference(&left, &right, lines.len());
        tally.count(
            language,
            kind,
            &lines[..place.unwrap_or(lines.len())],
            &left.text,
        );
        place.map(|place| self.shrunk(language, &lines[..(place + 1).min(lines.len())]))
    }

    /// A program runs beside the other driver; two of this process take turns.
    fn run(&self, language: Language, input: &[u8]) -> (Output, Output) {
        match self.right {
            Driver::Program { .. } => std::thread::scope(|scope| {
                let right = scope.spawn(|| self.right.run(language, input));
                let left = self.left.run(language, input);
                (left, right.join().expect("the program was run"))
            }),
            _ => (
                self.left.run(language, input),
                self.right.run(language, input),
            ),
        }
    }

    /// The place of the first difference on these lines.
    fn differs(&self, language: Language, lines: &[&[u8]]) -> Option<usize> {
        let (left, right) = self.run(language, &lines.concat());
        first_difference(&left, &right, lines.len())
    }

    /// Leaves out lines, in ever smaller pieces, as long as a difference stays.
    fn shrunk(&self, language: Language, lines: &[&[u8]]) -> Difference {
        let mut kept = self.last_history(language, lines);
        let mut piece = kept.len().div_ceil(2);
        let mut tries = MOST_TRIES;
        while piece > 0 {
            let mut start = 0;
            while start < kept.len() && tries > 0 {
                tries -= 1;
                let mut fewer = kept.clone();
                fewer.drain(start..(start + piece).min(kept.len()));
                match self.differs(language, &fewer) {
                    Some(place) => {
                        fewer.truncate(place + 1);
                        kept = fewer;
                    }
                    None => start += piece,
                }
            }
            piece /= 2;
        }
        self.described(language, &kept)
    }

    /// The lines from the last `new` on, if they alone show a difference.
    fn last_history<'a>(&self, language: Language, lines: &[&'a [u8]]) -> Vec<&'a [u8]> {
        let begins = |line: &&[u8]| matches!(call_of(line), Some(Call::New { .. }));
        let start = lines.iter().rposition(begins).unwrap_or(0);
        match self.differs(language, &lines[start..]) {
            Some(place) => lines[start..][..=place].to_vec(),
            None => lines.to_vec(),
        }
    }

    fn described(&self, language: Language, lines: &[&[u8]]) -> Difference {
        let (left, right) = self.run(language, &lines.concat());
        let (left_lines, right_lines) = (cut(&left.text), cut(&right.text));
        let place = first_unequal(&left_lines, &right_lines);
        Difference {
            history: lines.iter().map(|line| line.to_vec()).collect(),
            left: answer_at(&left_lines, place, left.broke),
            right: answer_at(&right_lines, place, right.broke),
        }
    }
}

fn answer_at(lines: &[&[u8]], place: usize, broke: bool) -> Vec<u8> {
    match lines.get(place) {
        Some(line) => line.to_vec(),
        None if broke => b"(it broke)".to_vec(),
        None => b"(no answer)".to_vec(),
    }
}

/// The call of a cut line, without its CRLF.
pub fn call_of(line: &[u8]) -> Option<Call> {
    let line = line.strip_suffix(b"\r\n").unwrap_or(line);
    read_call(line).filter(|_| line.len() <= LONGEST)
}

/// A text that can be printed, whatever bytes the line holds.
pub fn printable(line: &[u8]) -> String {
    let line = line.strip_suffix(b"\r\n").unwrap_or(line);
    line.escape_ascii().to_string()
}

/// How often each code was answered; 0 where a call acted.
type Codes = [u64; 9];

/// How many lines of each kind were compared, and how they were answered.
#[derive(Default)]
pub struct Tally {
    by_line: BTreeMap<(bool, &'static str), Codes>,
    by_history: BTreeMap<(bool, &'static str), Codes>,
}

impl Tally {
    fn count(&mut self, language: Language, kind: Kind, lines: &[&[u8]], answers: &[u8]) {
        let traced = language == Language::Trace;
        let mut place = 0;
        let mut codes = Codes::default();
        for_each_line(answers, usize::MAX, |answer| {
            let Some(line) = lines.get(place) else {
                return Ok(false);
            };
            let call = call_of(line).filter(|call| !traced || is_traced(call));
            let name = call.as_ref().map_or("(bad line)", kind_of);
            let code = code_of(answer.unwrap_or_default());
            self.by_line.entry((traced, name)).or_default()[code] += 1;
            codes[code] += 1;
            place += 1;
            Ok(true)
        })
        .expect("a slice is read");
        let of_kind = self.by_history.entry((traced, kind.name())).or_default();
        for (sum, count) in of_kind.iter_mut().zip(codes) {
            *sum += count;
        }
    }

    pub fn total(&self) -> u64 {
        self.by_history.values().flatten().sum()
    }

    /// How many the original itself answered: it acts, or it is full. The other
    /// refusals are the second implementation's and bad lines the shared reader's,
    /// so there only a port is compared with anything but itself.
    pub fn by_the_original(&self) -> u64 {
        let codes = self.by_history.values();
        codes.map(|codes| codes[0] + codes[1]).sum()
    }

    /// The least that any kind of line was compared.
    pub fn least(&self) -> u64 {
        let sums = self.by_line.values().map(|codes| codes.iter().sum());
        sums.min().unwrap_or(0)
    }

    pub fn print(&self) {
        print_counts("histories", &self.by_history);
        println!();
        print_counts("line", &self.by_line);
    }
}

fn print_counts(title: &str, counts: &BTreeMap<(bool, &'static str), Codes>) {
    println!("        {title:17}    compared      acted  refused by number");
    for ((traced, name), codes) in counts {
        let sum: u64 = codes.iter().sum();
        println!(
            "{:7} {name:17} {sum:>11} {:>10}  {}",
            language(*traced),
            codes[0],
            refusals(codes)
        );
    }
}

fn language(traced: bool) -> &'static str {
    if traced {
        "trace"
    } else {
        "replay"
    }
}

fn refusals(codes: &Codes) -> String {
    let given = (1..9).filter(|code| codes[*code] > 0);
    let texts: Vec<String> = given
        .map(|code| format!("{code}: {}", codes[code]))
        .collect();
    texts.join(", ")
}

/// The refusal number in an answer; 0 where it acted.
fn code_of(answer: &[u8]) -> usize {
    let comma = answer.iter().position(|byte| *byte == b',');
    let code = comma.and_then(|comma| answer.get(comma + 1));
    code.map_or(0, |digit| usize::from(digit.wrapping_sub(b'0')).min(8))
}
