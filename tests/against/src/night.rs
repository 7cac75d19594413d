//! The night report: stored inputs and outputs, the limits, and random damaged texts.

use crate::library::Program;
use crate::make;
use crate::tally::{in_parallel, Tally};
use second::random::Random;
use second::sketch::SAMPLES;
use second::{message, report, sketch};
use std::path::{Path, PathBuf};

/// The files in tests/report: NAME.in and, beside it, NAME.out.
pub fn stored(tally: &mut Tally, program: Option<&Program>) {
    for path in inputs() {
        let (input, due) = (read(&path), read(&path.with_extension("out")));
        let name = path.file_name().unwrap().to_string_lossy().into_owned();
        let second = report::report(&input);
        tally.check(second.as_bytes() == due, || format!("{name}: the second implementation writes {second:?}"));
        if let Some(program) = program {
            for piece in [1, 7, 70_000] {
                tally.report(program, &input, piece);
            }
        }
    }
}

fn inputs() -> Vec<PathBuf> {
    let folder = Path::new(env!("CARGO_MANIFEST_DIR")).join("../report");
    let entries = std::fs::read_dir(&folder).expect("the folder of stored reports");
    let mut paths: Vec<PathBuf> = entries.map(|entry| entry.unwrap().path()).filter(|path| path.extension().map_or(false, |e| e == "in")).collect();
    assert!(!paths.is_empty());
    paths.sort();
    paths
}

fn read(path: &Path) -> Vec<u8> {
    std::fs::read(path).unwrap_or_else(|error| panic!("{}: {error}", path.display()))
}

/// Inputs too large to store, each with what is due.
pub fn limits(tally: &mut Tally, program: Option<&Program>) {
    let message = "message 110002fffd7ffe00\n";
    // 8,192 keys in 60,000 bytes leave 7 bytes a key: all of them fit, and zeros in front fill up.
    let many = |count: u32| (0..count).map(|key| format!(" {key}")).collect::<String>();
    let equal = |count: usize| " 7".repeat(count);
    let long_message = |bytes: usize, digits: &str| format!("have\nmessage {}\n", digits.repeat(bytes / 2));
    let filled = |length: usize| format!("have 1\n{message}{}", "\n".repeat(length - 7 - message.len()));
    let zeros = |count: usize| format!("have{}\n{message}", " 000000001".repeat(count));
    let legal = sketch::sketch(0, &(0..8_191).collect::<Vec<_>>()).map(|sketch| message::write(&sketch)).unwrap();
    let legal: String = legal.iter().map(|byte| format!("{byte:02x}")).collect();
    let whole = "plan 0 peer 8191 own 8192\ntheirs 0:\nours 1: 8191\n";
    for (name, input, due) in [
        ("60,000 bytes of line 3", filled(60_000), "bad line 3\n"),
        ("60,001 bytes of line 3", filled(60_001), "too long\n"),
        ("60,000 bytes, no line", "h".repeat(60_000), "bad line 1\n"),
        ("60,001 bytes, no line", "h".repeat(60_001), "too long\n"),
        ("200,000 bytes", filled(200_000), "too long\n"),
        ("60,001 newlines", "\n".repeat(60_001), "too long\n"),
        ("a message of 29,993 bytes", long_message(59_986, "10"), "refused 7 at 0\n"),
        ("a message of 29,993 zero bytes", long_message(59_986, "00"), "refused 8 at 0\n"),
        ("a message of 29,994 bytes", long_message(59_988, "10"), "too long\n"),
        ("8,192 keys", format!("have{}\n{message}", many(8_192)), "refused 12 at 0\n"),
        ("8,192 keys and their message", format!("have{}\nmessage {legal}\n", many(8_192)), whole),
        ("8,193 keys", format!("have{}\n{message}", many(8_193)), "bad line 1\n"),
        ("8,192 equal keys", format!("have{}\n{message}", equal(8_192)), "refused 4 at 1\n"),
        ("8,193 equal keys", format!("have{}\n{message}", equal(8_193)), "bad line 1\n"),
        ("8,193 keys, no line 2", format!("have{}\n", equal(8_193)), "bad line 1\n"),
        ("8,193 keys, bad line 2", format!("have{}\nx\n", equal(8_193)), "bad line 1\n"),
        ("20,000 keys", format!("have{}\n{message}", equal(20_000)), "bad line 1\n"),
        ("a bad key after 8,192", format!("have{} x\n{message}", equal(8_192)), "bad line 1\n"),
        ("5,997 keys of 9 digits, 60,000 bytes", zeros(5_997), "refused 4 at 1\n"),
        ("5,998 keys of 9 digits", zeros(5_998), "too long\n"),
    ] {
        let second = report::report(input.as_bytes());
        tally.check(second == due, || format!("{name} ({} bytes): the second implementation writes {second:?}", input.len()));
        if let Some(program) = program {
            for piece in [4_096, 60_000, 200_000] {
                tally.report(program, input.as_bytes(), piece);
            }
        }
    }
}

/// Random texts, half of them damaged.
pub fn texts(seed: u64, count: u64, program: &Program) -> Tally {
    in_parallel(count, |index, tally| text(&mut Random::item(seed, 5, index), tally, program))
}

pub fn text(random: &mut Random, tally: &mut Tally, program: &Program) {
    let plan = random.below(16) as usize;
    let most = SAMPLES[plan] as u64 / 2 + 2;
    let (theirs, ours) = (random.below(most) as usize, random.below(most) as usize);
    let count = if random.once_in(20) { random.below(8_193) } else { random.below(60) } as usize;
    let home = make::set(random, count.max(ours));
    let (theirs, ours) = (make::strangers(random, &home, theirs), make::members(random, &home, ours));
    let dome = make::dome(&home, &theirs, &ours);
    let mut message = message::write(&sketch::sketch(plan as u32, &dome).expect("a legal list"));
    if random.once_in(4) {
        make::damage(random, &mut message);
    }
    let zeros = if random.once_in(5) { random.below(9) as usize } else { 0 };
    let keys: String = home.iter().map(|key| format!(" {key:00$}", zeros)).collect();
    let hex: String = message.iter().map(|byte| format!("{byte:02x}")).collect();
    let mut input = format!("have{keys}\nmessage {hex}\n").into_bytes();
    if random.once_in(2) {
        for _ in 0..=random.below(2) {
            damage(random, &mut input);
        }
    }
    let piece = random.of(&[1 << 20, 1 << 20, 1 << 20, 4_096, 100]);
    tally.report(program, &input, piece);
}

/// Damages a text, near its line ends more often than by chance.
fn damage(random: &mut Random, input: &mut Vec<u8>) {
    if input.is_empty() || random.once_in(6) {
        return make::damage(random, input);
    }
    let ends: Vec<usize> = (0..input.len()).filter(|&i| i == 0 || input[i] == b'\n').collect();
    let near = random.of(&ends) as i64 + random.from_to(-3, 9);
    let at = if random.once_in(2) { near.clamp(0, input.len() as i64 - 1) as usize } else { random.below(input.len() as u64) as usize };
    let byte = random.of(b"0123456789abcdefgAF \n\r\t-+/:x\0\xff");
    match random.below(5) {
        0 => input[at] = byte,
        1 => input.insert(at, byte),
        2 => drop(input.remove(at)),
        3 => input.truncate(at),
        _ => input.push(byte),
    }
}
