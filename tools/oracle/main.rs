// Answers inputs as the ASCII reader of the Rust crate plist 1.10.3 answers them, one event a line.
//
// It is built by `rustc` alone, with no other crate:
//
//     rustc -O --edition 2024 -o oracle tools/oracle/main.rs
//
// stream/ascii_reader.rs and integer.rs are the crate's own files, byte for byte. error.rs and stream/mod.rs are the crate's, cut down to what
// these two need; what was cut, and why, is said at their tops. The reader stands over a BufReader, as `Value::from_reader_ascii` has it.
// adjusted.rs is a copy of the reader in which each intended difference (switches.rs) can be switched on alone. The rest is not the crate's:
// this file reads inputs and prints answers.
//
//     oracle [OPTION ...] FILE             the events of the file's bytes, one a line; then `end`, or the refusal
//     oracle --batch [OPTION ...] FILE     one input a line, answered by one line: the same lines joined by `; `
//     oracle --explain [OPTION ...] FILE   a line is an input, a blank and an answer; answered by the smallest set of switches with which the
//                                          adjusted reader gives that answer, names with commas between; by `none` where it needs no
//                                          switch; by `?` where it does not give that answer with all
//     oracle --names                       the names of the switches
//
// FILE `-` is standard input. An input is hexadecimal, `-` for no bytes. `!CODE` at its end: the source ends with a fault of that code.
// `!!CODE`: the same, but the source says of it that it is an unexpected end (io::ErrorKind::UnexpectedEof). Options:
//     --adjust NAMES    the adjusted reader with these switches: `all`, `none`, or names with commas between
//     --text N          the most bytes of a text in place of 1,024, for the adjusted reader
//     --input N         the last position in place of 16,777,215, for the adjusted reader
//     --again N         ask N times more, behind the end or the refusal
#![allow(dead_code, unexpected_cfgs, unused_doc_comments)]

mod adjusted;
mod error;
mod integer;
mod stream;
mod switches;

pub use self::integer::Integer;

use std::fmt::Write as _;
use std::io::{self, BufRead, BufReader, Read, Write};

use error::{Error, ErrorKind};
use stream::{AsciiReader, Event, OwnedEvent};
use switches::{FIRST_FAULT_REPEATS, NAMES, Switches};

/// The code of a source's fault, inside an io::Error.
#[derive(Debug)]
struct Code(u8);

impl std::fmt::Display for Code {
    fn fmt(&self, f: &mut std::fmt::Formatter) -> std::fmt::Result {
        self.0.fmt(f)
    }
}

impl std::error::Error for Code {}

/// Bytes, and then the end or a fault, every time.
#[derive(Clone, Copy)]
struct Source<'a> {
    bytes: &'a [u8],
    fault: Option<(u8, io::ErrorKind)>,
}

impl Read for Source<'_> {
    fn read(&mut self, buf: &mut [u8]) -> io::Result<usize> {
        match self.fault {
            Some((code, kind)) if self.bytes.is_empty() => Err(io::Error::new(kind, Code(code))),
            _ => self.bytes.read(buf),
        }
    }
}

/// What is asked of the readers.
struct Asked<'a> {
    adjusted: Option<&'a Switches>,
    again: usize,
}

fn write_event(out: &mut String, event: &OwnedEvent) {
    match event {
        Event::StartArray(None) => out.push_str("StartArray"),
        Event::StartArray(Some(count)) => write!(out, "StartArray {count}").unwrap(),
        Event::StartDictionary(None) => out.push_str("StartDictionary"),
        Event::StartDictionary(Some(count)) => write!(out, "StartDictionary {count}").unwrap(),
        Event::EndCollection => out.push_str("EndCollection"),
        Event::Boolean(value) => write!(out, "Boolean {value}").unwrap(),
        Event::Data(bytes) => write_text(out, "Data ", bytes),
        Event::Integer(value) => write!(out, "Integer {value}").unwrap(),
        Event::Real(value) => write!(out, "Real {:016x}", value.to_bits()).unwrap(),
        Event::String(text) => write_text(out, "String ", text.as_bytes()),
    }
}

fn write_text(out: &mut String, word: &str, bytes: &[u8]) {
    const DIGITS: &[u8; 16] = b"0123456789abcdef";
    out.push_str(word);
    for byte in bytes {
        out.push(DIGITS[usize::from(byte >> 4)] as char);
        out.push(DIGITS[usize::from(byte & 15)] as char);
    }
}

fn write_refusal(out: &mut String, error: &Error) {
    let words = match error.kind() {
        ErrorKind::Io(_) => "7 Io",
        ErrorKind::TooLong => "8 TooLong",
        ErrorKind::TextTooLong => "9 TextTooLong",
        ErrorKind::UnclosedString => "10 UnclosedString",
        ErrorKind::IncompleteComment => "11 IncompleteComment",
        ErrorKind::InvalidUtf8AsciiStream => "12 InvalidUtf8AsciiStream",
        ErrorKind::InvalidOctalString => "13 InvalidOctalString",
        ErrorKind::InvalidUtf16String => "14 InvalidUtf16String",
        ErrorKind::UnexpectedEof | ErrorKind::UnexpectedEndOfEventStream => "? not an error of the reader",
    };
    write!(out, "refused {words}").unwrap();
    if let ErrorKind::Io(inside) = error.kind() {
        match inside.get_ref().and_then(|inside| inside.downcast_ref::<Code>()) {
            Some(Code(code)) => write!(out, " code={code}").unwrap(),
            None => out.push_str(" code=?"),
        }
    }
    if let Some(position) = error.position() {
        write!(out, " at {position}").unwrap();
    }
}

/// The answers of a reader: its events, and how it ended, `again` times more.
fn write_answers<I>(out: &mut String, between: &str, mut reader: I, again: usize, repeats: bool)
where
    I: Iterator<Item = Result<OwnedEvent, Error>>,
{
    let mut ended = 0;
    let mut last = 0..0;
    while ended <= again {
        if !out.is_empty() {
            out.push_str(between);
        }
        if ended > 0 && repeats {
            out.extend_from_within(last.clone());
            ended += 1;
            continue;
        }
        let start = out.len();
        match reader.next() {
            Some(Ok(event)) => {
                write_event(out, &event);
                if ended == 0 {
                    continue;
                }
            }
            Some(Err(error)) => write_refusal(out, &error),
            None => out.push_str("end"),
        }
        last = start..out.len();
        ended += 1;
    }
}

fn answer(out: &mut String, between: &str, source: Source, asked: &Asked) {
    // The ASCII reader reads one byte at a time, so always wrap in a `BufReader`.
    let below = BufReader::new(source);
    match asked.adjusted {
        None => write_answers(out, between, AsciiReader::new(below), asked.again, false),
        Some(switches) => {
            let repeats = asked.again > 0 && switches.on(FIRST_FAULT_REPEATS);
            write_answers(out, between, adjusted::AsciiReader::new(below, switches), asked.again, repeats)
        }
    }
}

/// What the adjusted reader answers with these switches.
fn answer_with(out: &mut String, source: Source, switches: &Switches, again: usize) {
    out.clear();
    answer(out, "; ", source, &Asked { adjusted: Some(switches), again });
}

/// The smallest set of switches with which the adjusted reader gives that answer, if it gives it with all. The sets are made of the switches
/// that it asked for then, since with any others as well it does the same.
fn explain(source: Source, limits: &Switches, again: usize, wanted: &str) -> Option<u32> {
    let mut out = String::new();
    let all = Switches { set: (1 << NAMES.len()) - 1, asked: 0.into(), ..limits.clone() };
    answer_with(&mut out, source, &all, again);
    if out != wanted {
        return None;
    }
    let asked = all.asked.get();
    for size in 0..=asked.count_ones() {
        for set in (0..=asked).filter(|set| set & !asked == 0 && set.count_ones() == size) {
            answer_with(&mut out, source, &Switches { set, ..limits.clone() }, again);
            if out == wanted {
                return Some(set);
            }
        }
    }
    None
}

/// An input as it stands on a line.
fn input<'a>(word: &str, bytes: &'a mut Vec<u8>) -> Result<Source<'a>, String> {
    let wrong = || format!("no input: {}", word.chars().take(60).collect::<String>());
    let (hex, fault) = match word.split_once('!') {
        None => (word, None),
        Some((hex, rest)) => {
            let (kind, code) = match rest.strip_prefix('!') {
                Some(code) => (io::ErrorKind::UnexpectedEof, code),
                None => (io::ErrorKind::Other, rest),
            };
            (hex, Some((code.parse::<u8>().map_err(|_| wrong())?, kind)))
        }
    };
    bytes.clear();
    if hex != "-" {
        if hex.is_empty() || hex.len() % 2 == 1 {
            return Err(wrong());
        }
        for pair in hex.as_bytes().chunks_exact(2) {
            let high = (pair[0] as char).to_digit(16).ok_or_else(wrong)?;
            let low = (pair[1] as char).to_digit(16).ok_or_else(wrong)?;
            bytes.push((high * 16 + low) as u8);
        }
    }
    Ok(Source { bytes, fault })
}

#[derive(Clone, Copy, PartialEq)]
enum Form {
    File,
    Batch,
    Explain,
}

fn open(path: &str) -> Result<Box<dyn Read>, String> {
    if path == "-" {
        Ok(Box::new(io::stdin()))
    } else {
        std::fs::File::open(path).map(|file| Box::new(file) as Box<dyn Read>).map_err(|error| format!("{path}: {error}"))
    }
}

fn run(form: Form, path: &str, asked: &Asked, switches: &Switches) -> Result<(), String> {
    let mut stdout = io::BufWriter::with_capacity(1 << 16, io::stdout().lock());
    let mut out = String::new();
    let mut bytes = Vec::new();
    if form == Form::File {
        open(path)?.read_to_end(&mut bytes).map_err(|error| format!("{path}: {error}"))?;
        answer(&mut out, "\n", Source { bytes: &bytes, fault: None }, asked);
        return writeln!(stdout, "{out}").map_err(|error| error.to_string());
    }
    for line in BufReader::with_capacity(1 << 16, open(path)?).lines() {
        let line = line.map_err(|error| format!("{path}: {error}"))?;
        out.clear();
        if form == Form::Batch {
            answer(&mut out, "; ", input(&line, &mut bytes)?, asked);
        } else {
            let (word, wanted) = line.split_once(' ').ok_or_else(|| format!("an input and no answer: {line}"))?;
            match explain(input(word, &mut bytes)?, switches, asked.again, wanted) {
                Some(0) => out.push_str("none"),
                Some(set) => out.push_str(&Switches::names_of(set).join(",")),
                None => out.push('?'),
            }
        }
        writeln!(stdout, "{out}").map_err(|error| error.to_string())?;
    }
    stdout.flush().map_err(|error| error.to_string())
}

fn words() -> Result<(), String> {
    let mut switches = Switches { set: 0, text_limit: 1024, input_limit: 16_777_215, asked: 0.into() };
    let mut adjusted = false;
    let mut again = 0;
    let mut form = Form::File;
    let mut path = None;
    let mut words = std::env::args().skip(1);
    while let Some(word) = words.next() {
        let mut value = || words.next().ok_or_else(|| format!("{word} needs a word behind it"));
        match word.as_str() {
            "--batch" => form = Form::Batch,
            "--explain" => form = Form::Explain,
            "--names" => {
                println!("{}", NAMES.join("\n"));
                return Ok(());
            }
            "--adjust" => {
                let names = value()?;
                switches.set = Switches::set_of(&names).ok_or_else(|| format!("unknown switches: {names}"))?;
                adjusted = true;
            }
            "--text" => switches.text_limit = value()?.parse().map_err(|_| "--text needs a number")?,
            "--input" => switches.input_limit = value()?.parse().map_err(|_| "--input needs a number")?,
            "--again" => again = value()?.parse().map_err(|_| "--again needs a number")?,
            other if path.is_none() && (other == "-" || !other.starts_with('-')) => path = Some(word),
            _ => return Err(format!("unknown word: {word}")),
        }
    }
    let path = path.ok_or("a file is needed, or - for standard input; the forms stand at the top of tools/oracle/main.rs")?;
    run(form, &path, &Asked { adjusted: adjusted.then_some(&switches), again }, &switches)
}

fn main() {
    if let Err(trouble) = words() {
        eprintln!("oracle: {trouble}");
        std::process::exit(1);
    }
}
