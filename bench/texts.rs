//! Scenarios, good ones and damaged ones.
use crate::random::Random;
use crate::reports::MOST_BYTES;
use std::iter;

const REFERENCES: u16 = 24;

/// What a core does with a reference, and the other core for it.
fn access(random: &mut Random) -> Vec<String> {
    let core = random.below(2);
    let reference = random.below(REFERENCES);
    let word = if random.below(3) == 0 {
        "write"
    } else {
        "read"
    };
    let mut lines = vec![
        format!("{word}\t{core}\t{reference}\n"),
        format!("flush\t{}\t{reference}\n", 1 - core),
        format!("fetch\t{core}\n"),
        format!("resume\t{core}\n"),
    ];
    if random.below(20) == 0 {
        lines.push(format!("commit\t{core}\t{reference}\n"));
    }
    lines
}

/// A line of just so many bytes, 8 to 15.
fn line_of(length: usize) -> String {
    match length as u32 {
        length @ 8..=12 => format!("fetch\t{}\n", 10u32.pow(length - 8)),
        length => format!("commit\t{}\t0\n", 10u32.pow(length - 11)),
    }
}

/// A scenario of just as many bytes as a text may have.
pub fn whole(seed: u64) -> Vec<u8> {
    let mut random = Random::new(seed);
    let weights = iter::once("weights\t1\t10\t10\t10\t100\n".to_string());
    let placements = (0..REFERENCES).map(|r| format!("ref\t{r}\t{}\n", r * 7 % 16));
    let steps = iter::repeat_with(|| access(&mut random)).flatten();
    let mut text = Vec::new();
    for line in weights.chain(placements).chain(steps) {
        if text.len() + line.len() + 8 > MOST_BYTES {
            break;
        }
        text.extend_from_slice(line.as_bytes());
    }
    while text.len() + 16 <= MOST_BYTES {
        text.extend_from_slice(line_of(8).as_bytes());
    }
    text.extend_from_slice(line_of(MOST_BYTES - text.len()).as_bytes());
    text
}

/// The front of a text, with up to three bytes changed.
pub fn damaged(text: &[u8], seed: u64) -> Vec<u8> {
    const BYTES: &[u8] = b"0123456789\t\n\r+ abrefw";
    let mut random = Random::new(seed);
    let length = 1 + usize::from(random.below(2_000));
    let mut bad = text[..length.min(text.len())].to_vec();
    for _ in 0..=random.below(3) {
        let place = usize::from(random.below(bad.len() as u16));
        bad[place] = BYTES[usize::from(random.below(BYTES.len() as u16))];
    }
    bad
}

/// Nothing, no weights, a last line without its end, and a byte too many.
pub fn odd(text: &[u8]) -> Vec<Vec<u8>> {
    let mut long = text.to_vec();
    long.resize(MOST_BYTES + 1, b'\n');
    vec![
        Vec::new(),
        b"\n".to_vec(),
        text[..text.len() - 1].to_vec(),
        long,
    ]
}
