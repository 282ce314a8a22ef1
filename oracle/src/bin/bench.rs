//! Measures the port's `trace` beside the original in the same lines: lines a
//! second, microseconds of a call, bytes of stack. Processor time, not the clock,
//! so that other programs disturb it less; the best of some runs.

use std::fmt::Write as _;
use std::fs::{write, File};
use std::path::{Path, PathBuf};
use std::process::{Command, Stdio};

use oracle::arguments::Arguments;
use oracle::calls::{Call, Engine, KeepAlive, Settings};
use oracle::histories::{Histories, Kind, Language};
use oracle::original::machine::Bare;
use oracle::written::print_call;

const USAGE: &str = "bench --trace-port TRACE [--lines N] [--runs N]";

/// A call among so many stored ones.
const STORED: [u32; 4] = [1, 16, 40, 80];

/// A line that is read and answered, and does nothing.
const BAD_LINE: &[u8] = b"x\r\n";

fn main() {
    let arguments = Arguments::read(USAGE, &["--trace-port", "--lines", "--runs"]);
    let port = arguments
        .text("--trace-port")
        .unwrap_or_else(|| arguments.fail());
    let lines: usize = arguments.number("--lines", 40_000);
    let bench = Bench {
        port: port.into(),
        rust: beside_this("trace"),
        input: beside_this("bench.input"),
        runs: arguments.number("--runs", 40),
    };
    bench.lines_a_second(lines);
    bench.calls(lines);
    bench.stacks();
}

fn beside_this(name: &str) -> PathBuf {
    let this = std::env::current_exe().expect("it runs");
    this.with_file_name(name)
}

struct Bench {
    port: PathBuf,
    rust: PathBuf,
    input: PathBuf,
    runs: u32,
}

/// The least processor time of each on one input.
struct Times {
    port: f64,
    rust: f64,
}

impl Bench {
    fn lines_a_second(&self, lines: usize) {
        println!("lines a second, histories of the domain");
        let input = Histories::new(1).batch(Language::Trace, Kind::Domain, lines);
        let count = input.iter().filter(|byte| **byte == b'\n').count() as f64;
        let times = &self.times(&[&input])[0];
        let (port, rust) = (count / times.port, count / times.rust);
        println!("  port {port:.0}, Rust {rust:.0}, ratio {:.1}", rust / port);
    }

    /// A call with its line, less a line that does nothing.
    fn calls(&self, lines: usize) {
        println!("microseconds of a call, with its line read and answered");
        println!("  stored  call                     port    Rust   ratio");
        for stored in STORED {
            let nothing = [begun(stored).1, BAD_LINE.repeat(lines)].concat();
            let repeated = inputs(stored, lines);
            let mut all = vec![&nothing[..]];
            all.extend(repeated.iter().map(|repeated| &repeated.input[..]));
            let times = self.times(&all);
            for (Repeated { name, calls, .. }, with) in repeated.iter().zip(&times[1..]) {
                let each = 1e6 / *calls as f64;
                let port = (with.port - times[0].port) * each;
                let rust = (with.rust - times[0].rust) * each;
                let ratio = port / rust;
                println!("  {stored:6}  {name:20} {port:8.2} {rust:7.2} {ratio:7.1}");
            }
        }
    }

    /// Each input in turn, again and again, so that what else the machine does falls
    /// on all of them.
    fn times(&self, inputs: &[&[u8]]) -> Vec<Times> {
        let most = || Times {
            port: f64::INFINITY,
            rust: f64::INFINITY,
        };
        let mut times: Vec<Times> = inputs.iter().map(|_| most()).collect();
        for _ in 0..self.runs {
            for (input, best) in inputs.iter().zip(&mut times) {
                write(&self.input, input).expect("the input is written");
                best.port = best.port.min(self.timed(Command::new(&self.port)));
                best.rust = best.rust.min(self.timed(self.rust_command()));
            }
        }
        times
    }

    fn rust_command(&self) -> Command {
        let mut command = Command::new(&self.rust);
        command.arg("bare");
        command
    }

    fn timed(&self, mut command: Command) -> f64 {
        let before = children_seconds();
        let lines = File::open(&self.input).expect("it was written");
        let status = command.stdin(lines).stdout(Stdio::null()).status();
        assert!(status.is_ok_and(|status| status.success()), "{command:?}");
        children_seconds() - before
    }

    /// The most stack that each program uses, as valgrind sees it.
    fn stacks(&self) {
        println!("bytes of stack at the deepest, every call with 80 stored");
        let mut every = begun(79).1;
        for repeated in inputs(79, 200) {
            every.extend(repeated.input);
        }
        let bad = BAD_LINE.repeat(200);
        for (name, command) in [
            ("port", Command::new(&self.port)),
            ("Rust", self.rust_command()),
        ] {
            match (self.stack(&command, &every), self.stack(&command, &bad)) {
                (Some(every), Some(bad)) => {
                    println!("  {name} {every}, with bad lines alone {bad}")
                }
                _ => println!("  {name}: left out, there is no valgrind"),
            }
        }
    }

    fn stack(&self, of: &Command, input: &[u8]) -> Option<u64> {
        write(&self.input, input).expect("the input is written");
        let snapshots = self.input.with_extension("massif");
        let mut command = Command::new("valgrind");
        command.args([
            "--tool=massif",
            "--heap=no",
            "--stacks=yes",
            "--peak-inaccuracy=0",
        ]);
        command.arg(format!("--massif-out-file={}", snapshots.display()));
        command.arg(of.get_program()).args(of.get_args());
        let lines = File::open(&self.input).expect("it was written");
        command
            .stdin(lines)
            .stdout(Stdio::null())
            .stderr(Stdio::null());
        command.status().ok().filter(|status| status.success())?;
        most_stack(&snapshots)
    }
}

fn most_stack(snapshots: &Path) -> Option<u64> {
    let text = std::fs::read_to_string(snapshots).ok()?;
    let sizes = text
        .lines()
        .filter_map(|line| line.strip_prefix("mem_stacks_B="));
    sizes.filter_map(|size| size.parse().ok()).max()
}

/// An engine and the lines that brought it there: so many stored, nothing open.
fn begun(stored: u32) -> (Bare, Vec<u8>) {
    let mut text = String::from("new,80\r\n");
    for id in 1..=stored {
        write!(text, "add,0,1,{id},0,60,0,0\r\ndone,{id},0\r\n").expect("a text grows");
    }
    let mut engine = Bare::default();
    oracle::trace::trace(&mut engine, text.as_bytes(), std::io::sink()).expect("a text is read");
    (engine, text.into_bytes())
}

/// An input in which a call is made again and again.
struct Repeated {
    name: &'static str,
    calls: usize,
    input: Vec<u8>,
}

/// So many lines of each call, with so many stored; a report and its completion are two.
fn inputs(stored: u32, lines: usize) -> [Repeated; 4] {
    let (engine, begin) = begun(stored);
    let repeated = |name, begin: &[u8], line: &[u8]| Repeated {
        name,
        calls: lines,
        input: [begin, &line.repeat(lines)].concat(),
    };
    let open = [&begin[..], b"note,3,6,0\r\nreport,1000,0,0,0\r\n"].concat();
    [
        repeated("note", &begin, b"note,3,6,0\r\n"),
        Repeated {
            name: "report and complete",
            calls: lines / 2,
            input: reports(engine, &begin, lines / 2),
        },
        repeated("attribute", &open, b"attr,1,3,6,0\r\n"),
        repeated("next instant", &begin, b"wake,0,0\r\n"),
    ]
}

/// Reports of everybody in turn, each sent, at one instant after another.
fn reports(mut engine: Bare, begin: &[u8], times: usize) -> Vec<u8> {
    let mut text = begin.to_vec();
    for now in 1..=times as u64 {
        let report = Call::Report(Settings {
            now,
            events: 0,
            keep_alive: KeepAlive::Default,
            all: true,
        });
        let handed_out = engine.call(&report).expect("no report is open");
        let done = Call::Done {
            id: handed_out[1] as u32,
            outcome: 0,
        };
        engine.call(&done).expect("it is open");
        for call in [report, done] {
            print_call(&mut text, &call);
            text.extend_from_slice(b"\r\n");
        }
    }
    text
}

#[repr(C)]
#[derive(Default)]
struct Usage {
    user: [i64; 2],
    system: [i64; 2],
    rest: [i64; 14],
}

extern "C" {
    fn getrusage(whose: i32, usage: &mut Usage) -> i32;
}

/// Processor time of the programs that were waited for.
fn children_seconds() -> f64 {
    const CHILDREN: i32 = -1;
    let mut usage = Usage::default();
    // Safety: the C library's function fills the struct that it is lent.
    let failed = unsafe { getrusage(CHILDREN, &mut usage) };
    assert_eq!(failed, 0);
    let [user, system] = [usage.user, usage.system].map(|[s, us]| s as f64 + us as f64 / 1e6);
    user + system
}
