//! Reading cases. Every line is judged by itself; whether its call would be granted is for the run to say.

use crate::case::{At, Basket, Case, Chain, Held, NAMES, Report, Step};
use crate::host::{Base, ErrorNumber, Kind, LONGEST_TEXT, LayerKind, Meaning, NUMBERS};
use crate::names::{IoKind, Rank};
use crate::quote::unquote;

/// Read all cases of a file, or say which line is wrong and why.
pub fn cases(file: &str) -> Result<Vec<Case>, String> {
    let mut cases: Vec<Case> = Vec::new();
    let mut host_named = false;
    if !file.is_empty() && !file.ends_with('\n') {
        return Err("the last line does not end with a newline".into());
    }
    for (index, line) in file.split_terminator('\n').enumerate() {
        let words: Vec<&str> = line.split(' ').collect();
        if line.starts_with('#') {
            continue;
        }
        if let ["case", name] = words[..] {
            cases.push(begin(name, index + 1)?);
            host_named = false;
            continue;
        }
        let case = cases.last_mut().ok_or_else(|| format!("line {}: a file begins with a case", index + 1))?;
        let read = if host_named { content(case, index + 1, line, &words) } else { host(case, &words) };
        read.map_err(|why| format!("case {} line {}: {why}", case.name, index + 1))?;
        host_named = true;
    }
    Ok(cases)
}

fn begin(name: &str, line: usize) -> Result<Case, String> {
    let known = |byte: u8| byte.is_ascii_lowercase() || byte.is_ascii_digit() || byte == b'-';
    if name.is_empty() || !name.bytes().all(known) {
        return Err(format!("line {line}: a case is named by small letters, digits and hyphens"));
    }
    Ok(Case::made(name.into(), Base::Drive, Vec::new()))
}

fn host(case: &mut Case, words: &[&str]) -> Result<(), String> {
    case.base = match words {
        ["host", "table"] => Base::Table(Vec::new()),
        ["host", "drive"] => Base::Drive,
        _ => return Err("a case begins with its host".into()),
    };
    Ok(())
}

fn content(case: &mut Case, line: usize, text: &str, words: &[&str]) -> Result<(), String> {
    if words[0] != "error" {
        case.steps.push((line, step(words)?));
        return Ok(());
    }
    match &mut case.base {
        Base::Table(records) if case.steps.is_empty() => {
            records.push(record(text, records.len())?);
            case.record_lines.push(line);
            Ok(())
        }
        _ => Err("records stand directly under `host table`".into()),
    }
}

fn record(line: &str, number: usize) -> Result<Meaning, String> {
    let (head, quoted) = line.split_once(" \"").ok_or("a record ends with its text")?;
    let text = unquote(&format!("\"{quoted}"))?;
    let words: Vec<&str> = head.split(' ').collect();
    let (kind, source) = match words[1..] {
        [_, "plain", source] => (Kind::Plain, source),
        [_, "message", "none"] => (Kind::Message(None), "none"),
        [_, "message", class] => (Kind::Message(Some(rank(class)?)), "none"),
        [_, "marker", class, source] => (Kind::Marker(rank(class)?), source),
        [_, "reserve"] => (Kind::Reserve, "none"),
        [_, "io", kind, source] => (Kind::Io(io_kind(kind)?), source),
        _ => return Err("no such record".into()),
    };
    let source = if source == "none" { None } else { Some(error(source)?) };
    if error(words[1])? != number {
        return Err(format!("the next record has the number {number}"));
    }
    if source.is_some_and(|source| source >= number) {
        return Err("a source is smaller than its error".into());
    }
    if text.len() > LONGEST_TEXT {
        return Err(format!("a text has at most {LONGEST_TEXT} bytes"));
    }
    Ok(Meaning { kind, source, text })
}

fn step(words: &[&str]) -> Result<Step, String> {
    Ok(match *words {
        ["layer", "marker"] => Step::Layer(LayerKind::Marker),
        ["layer", "io"] => Step::Layer(LayerKind::Io),
        ["mark", source, class, "as", number] => entry(Kind::Marker(rank(class)?), source, number)?,
        ["wrap", source, kind, "as", number] => entry(Kind::Io(io_kind(kind)?), source, number)?,
        ["new", name, number, place] => Step::New(report(name)?, at(number, place)?),
        ["raise", name, number, place] => Step::Raise(report(name)?, at(number, place)?),
        ["raise_all", name, row, number, place] => Step::RaiseAll(report(name)?, basket(row)?, at(number, place)?),
        ["chain", head, tail] => Step::Chain(report(head)?, report(tail)?),
        ["chain_all", head, row] => Step::ChainAll(report(head)?, basket(row)?),
        ["basket", row] => Step::Basket(basket(row)?),
        ["collect", row, name] => Step::Collect(basket(row)?, report(name)?),
        ["take", row, "none"] => Step::Take(basket(row)?, None),
        ["take", row, name] => Step::Take(basket(row)?, Some(report(name)?)),
        ["drain_children", name, row] => Step::DrainChildren(report(name)?, basket(row)?),
        ["into_chain", name, list] => Step::IntoChain(report(name)?, chain(list)?),
        ["into_exn", list, name] => Step::IntoExn(chain(list)?, report(name)?),
        ["discard", name] => Step::Discard(held(name)?),
        ["ask", name] => Step::Ask(report(name)?),
        _ => return Err("no such line".into()),
    })
}

fn entry(kind: Kind, source: &str, number: &str) -> Result<Step, String> {
    Ok(Step::Entry { kind, source: error(source)?, number: error(number)? })
}

fn at(number: &str, place: &str) -> Result<At, String> {
    let place = decimal(place).and_then(|place| u32::try_from(place).ok());
    Ok(At { error: error(number)?, place: place.ok_or("no such place")? })
}

fn held(name: &str) -> Result<Held, String> {
    report(name).map(Held::Report).or_else(|_| basket(name).map(Held::Basket)).or_else(|_| chain(name).map(Held::Chain))
}

fn report(name: &str) -> Result<Report, String> {
    numbered(name, "r", "report").map(Report)
}

fn basket(name: &str) -> Result<Basket, String> {
    numbered(name, "b", "basket").map(Basket)
}

fn chain(name: &str) -> Result<Chain, String> {
    numbered(name, "c", "chain").map(Chain)
}

fn numbered(name: &str, letter: &str, what: &str) -> Result<usize, String> {
    name.strip_prefix(letter)
        .and_then(decimal)
        .filter(|number| *number < NAMES)
        .ok_or_else(|| format!("`{name}` does not name a {what}"))
}

fn rank(name: &str) -> Result<Rank, String> {
    Rank::named(name).ok_or_else(|| format!("`{name}` is no class"))
}

fn io_kind(name: &str) -> Result<IoKind, String> {
    IoKind::named(name).ok_or_else(|| format!("`{name}` is no io kind"))
}

fn error(word: &str) -> Result<ErrorNumber, String> {
    decimal(word).filter(|number| *number < NUMBERS).ok_or_else(|| format!("`{word}` is no error number"))
}

/// A decimal number without leading zeros.
pub fn decimal(word: &str) -> Option<usize> {
    let digits = word.bytes().all(|byte| byte.is_ascii_digit());
    let leading_zero = word.len() > 1 && word.starts_with('0');
    (digits && !leading_zero).then(|| word.parse().ok()).flatten()
}
