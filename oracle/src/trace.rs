//! Document 01's trace lines, on either implementation: seven calls, answered by
//! line number, code and one value. The fields are read as in `lines`.

use std::io::{Read, Result, Write};

use crate::calls::{Answer, Call, Engine};
use crate::lines::{for_each_line, print_answer, read_call, BAD_LINE};

const LONGEST: usize = 96;
const MOST_LINES: u64 = 1_000_000;

/// Answers every line of the input, until it ends or there were too many.
pub fn trace(engine: &mut impl Engine, input: impl Read, mut output: impl Write) -> Result<()> {
    let mut text = Vec::new();
    let mut number = 0;
    for_each_line(input, LONGEST, |line| {
        number += 1;
        let call = line.and_then(read_call).filter(is_traced);
        let value = match &call {
            Some(call) => traced_value(call, engine.call(call)),
            None => Err(BAD_LINE),
        };
        print_traced(&mut text, number, value);
        if text.len() >= 1 << 16 {
            output.write_all(&text)?;
            text.clear();
        }
        Ok(number < MOST_LINES)
    })?;
    output.write_all(&text)?;
    output.flush()
}

pub fn is_traced(call: &Call) -> bool {
    matches!(
        call,
        Call::New { .. }
            | Call::Add { .. }
            | Call::Note(_)
            | Call::Report(_)
            | Call::Done { .. }
            | Call::Attr { .. }
            | Call::Wake { .. }
    )
}

/// The first value of the answer, but of a report the id.
fn traced_value(call: &Call, answer: Answer) -> std::result::Result<u64, u8> {
    let values = answer?;
    let place = usize::from(matches!(call, Call::Report(_)));
    Ok(values[place])
}

fn print_traced(text: &mut Vec<u8>, number: u64, value: std::result::Result<u64, u8>) {
    print_answer(text, number, &value.map(|value| vec![value]));
    if value.is_err() {
        text.extend_from_slice(b",0");
    }
    text.extend_from_slice(b"\r\n");
}
