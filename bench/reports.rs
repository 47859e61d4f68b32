//! Scenarios and their reports in plain Rust, on the machine of mcsim. Nothing is proved here.
use crate::rules::{Answer, Call, Level, Machine, Refusal};
use std::io::{self, Write};

pub const MOST_BYTES: usize = 65_536;
const MOST_LINE: usize = 80;
const MOST_WEIGHT: u16 = 1_000;
const REFERENCES: usize = 256;

struct Fault {
    layer: &'static str,
    line: usize,
    field: usize,
    number: u32,
}

fn fault(layer: &'static str, line: usize, field: usize, number: u32) -> Fault {
    Fault {
        layer,
        line,
        field,
        number,
    }
}

/// What was read so far.
struct Scenario {
    weights: Option<[u16; 5]>,
    blocks: [Option<u16>; REFERENCES],
    calls: Vec<Call>,
}

fn number(field: &[u8]) -> Option<u16> {
    if field.is_empty() || (field[0] == b'0' && field.len() > 1) {
        return None;
    }
    let mut number = 0u32;
    for digit in field {
        if !digit.is_ascii_digit() {
            return None;
        }
        number = 10 * number + u32::from(digit - b'0');
        if number > u32::from(u16::MAX) {
            return None;
        }
    }
    Some(number as u16)
}

/// The numbers of a line after its word, as many as are wanted.
fn numbers<'t, const N: usize>(
    fields: impl Iterator<Item = &'t [u8]>,
    line: usize,
) -> Result<[u16; N], Fault> {
    let mut parts: [&[u8]; N] = [&[]; N];
    let mut count = 0;
    for field in fields {
        if count == N {
            return Err(fault("text", line, 0, 18));
        }
        parts[count] = field;
        count += 1;
    }
    if count < N {
        return Err(fault("text", line, 0, 18));
    }
    let mut numbers = [0; N];
    for (place, part) in parts.iter().enumerate() {
        numbers[place] = number(part).ok_or_else(|| fault("text", line, place + 2, 19))?;
    }
    Ok(numbers)
}

impl Scenario {
    fn block(&self, reference: u16, line: usize) -> Result<u16, Fault> {
        self.blocks
            .get(usize::from(reference))
            .copied()
            .flatten()
            .ok_or_else(|| fault("layout", line, 3, 21))
    }

    fn line(&mut self, bytes: &[u8], line: usize) -> Result<(), Fault> {
        if bytes.len() > MOST_LINE {
            return Err(fault("text", line, 0, 16));
        }
        let mut fields = bytes.split(|byte| *byte == b'\t');
        let word = fields.next().unwrap_or(&[]);
        match (word, self.weights.is_some()) {
            (b"weights", false) => self.weights = Some(numbers(fields, line)?),
            (b"ref", true) if self.calls.is_empty() => {
                let [reference, block] = numbers(fields, line)?;
                match self.blocks.get_mut(usize::from(reference)) {
                    Some(entry @ None) => *entry = Some(block),
                    _ => return Err(fault("layout", line, 2, 20)),
                }
            }
            (b"read" | b"write" | b"commit" | b"flush", true) => {
                let [core, reference] = numbers(fields, line)?;
                let block = self.block(reference, line)?;
                let core = usize::from(core);
                self.calls.push(match word[0] {
                    b'r' => Call::Read(core, block),
                    b'w' => Call::Write(core, block),
                    b'c' => Call::Commit(core, block),
                    _ => Call::Flush(core, block),
                });
            }
            (b"fetch", true) => {
                let [core] = numbers(fields, line)?;
                self.calls.push(Call::Fetch(usize::from(core)));
            }
            (b"resume", true) => {
                let [core] = numbers(fields, line)?;
                self.calls.push(Call::Resume(usize::from(core)));
            }
            _ => return Err(fault("text", line, 1, 17)),
        }
        Ok(())
    }

    fn read(bytes: &[u8]) -> Result<Scenario, Fault> {
        if bytes.len() > MOST_BYTES {
            return Err(fault("text", 0, 0, 15));
        }
        let mut scenario = Scenario {
            weights: None,
            blocks: [None; REFERENCES],
            calls: Vec::new(),
        };
        let mut rest = bytes;
        let mut line = 1;
        while let Some(end) = rest.iter().position(|byte| *byte == b'\n') {
            scenario.line(&rest[..end], line)?;
            rest = &rest[end + 1..];
            line += 1;
        }
        if !rest.is_empty() {
            return Err(fault("text", line, 0, 16));
        }
        let weights = scenario.weights.ok_or_else(|| fault("text", 1, 1, 17))?;
        if weights.iter().any(|weight| *weight > MOST_WEIGHT) {
            return Err(fault("study", 1, 0, 3));
        }
        Ok(scenario)
    }
}

fn told(answer: Result<Answer, Refusal>) -> (&'static str, u32) {
    match answer {
        Ok(Answer::Waits(block)) => ("waits", u32::from(block)),
        Ok(Answer::Brought(block)) => ("brought", u32::from(block)),
        Ok(Answer::Read(stamp)) => ("read", stamp),
        Ok(Answer::Wrote(stamp)) => ("wrote", stamp),
        Ok(Answer::Flushed(block)) => ("flushed", u32::from(block)),
        Ok(Answer::Committed(stored)) => ("committed", u32::from(stored)),
        Err(refusal) => ("refused", refusal as u32),
    }
}

fn play(scenario: &Scenario, out: &mut impl Write) -> io::Result<()> {
    let [w1, w2, w3, w4, wm] = scenario.weights.unwrap_or_default().map(u64::from);
    let caches = (0..2).map(|_| vec![Level::new(2, 1), Level::new(2, 2)]);
    let mut machine = Machine::new(caches.collect(), 16, [w1, w2, w3, w4], wm);
    for (place, call) in scenario.calls.iter().enumerate() {
        let (word, value) = told(machine.step(*call));
        writeln!(out, "{}\t{word}\t{value}\t{}", place + 1, machine.total)?;
    }
    let (accesses, total) = (machine.accesses, machine.total);
    match accesses {
        0 => writeln!(out, "quote\t0\t{total}\t-"),
        _ => writeln!(
            out,
            "quote\t{accesses}\t{total}\t{}",
            100 * total / u64::from(accesses)
        ),
    }
}

/// Writes the report of a scenario.
pub fn report(text: &[u8], out: &mut impl Write) -> io::Result<()> {
    match Scenario::read(text) {
        Ok(scenario) => play(&scenario, out),
        Err(Fault {
            layer,
            line,
            field,
            number,
        }) => writeln!(out, "fault\t{layer}\t{line}\t{field}\t{number}"),
    }
}
