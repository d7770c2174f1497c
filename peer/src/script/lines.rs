//! The lines that a script can have: how each goes, and the step that it says.

use std::ops::RangeInclusive;

use super::bad::{shown, Bad};
use super::words::{spelled, Words};
use super::Step;
use crate::model::{AREA, FONTS};

type Read = fn(&mut Words<'_>) -> Result<Step, Bad>;

/// The form of each line, and what reads the words after the first. D stands for twelve numbers; a
/// last word in brackets can be left out. Forms that begin with the same word stand together, and
/// no two have as many words.
const LINES: [(&str, Read); 18] = [
    ("widths N", |words| Ok(Step::Widths(words.width()?))),
    ("width F C N", width),
    ("fill N", |words| Ok(Step::Fill(words.byte()?))),
    ("fresh", |_| Ok(Step::Fresh)),
    ("lend T R W", |words| Ok(Step::Lend(words.lend()?))),
    ("open S K D", open),
    ("submit S K N HEX", submit),
    ("take S K TOTAL", take),
    ("close S K", |words| Ok(Step::Close { slot: words.long()?, key: words.long()? })),
    ("count", |_| Ok(Step::Count)),
    ("stored N", |words| Ok(Step::Store(words.long()?))),
    ("stored", |_| Ok(Step::Stored)),
    ("direct S HEX", |words| Ok(Step::Direct { slot: words.slot()?, part: words.bytes()? })),
    ("check HEX", |words| Ok(Step::Check { part: words.bytes()? })),
    ("check-at N HEX", |words| {
        Ok(Step::CheckAt { increment: words.long()?, part: words.bytes()? })
    }),
    (
        "set S KEY OPEN D I B MARGIN INCREMENT ADJUSTMENT DIRECTION FONT COLOUR SPACE SUPPRESSION \
         CHAIN NEXT USED [TAKEN]",
        |words| Ok(Step::Set { slot: words.slot()?, entry: words.entry()? }),
    ),
    ("show S", |words| Ok(Step::Show { slot: words.slot()? })),
    ("bytes S FROM TO", bytes),
];

/// How each line goes.
pub fn forms() -> impl Iterator<Item = &'static str> {
    LINES.iter().map(|(form, _)| *form)
}

fn first(line: &str) -> &str {
    line.split_once(' ').map_or(line, |(first, _)| first)
}

pub(super) fn parse(line: &str) -> Result<Step, Bad> {
    spaced(line)?;
    let found = length(line);
    let alike: Vec<(String, Read)> = LINES
        .iter()
        .filter(|(form, _)| first(form) == first(line))
        .map(|(form, read)| (spelled(form), *read))
        .collect();
    match alike.iter().find(|(form, _)| lengths(form).contains(&found)) {
        Some((form, read)) => read(&mut Words::of(line, form)),
        None if alike.is_empty() => Err(unknown(first(line))),
        None => Err(unlike(found, alike.into_iter().map(|(form, _)| form).collect())),
    }
}

fn length(line: &str) -> usize {
    line.split(' ').count()
}

/// How many words a line of this form may have.
fn lengths(form: &str) -> RangeInclusive<usize> {
    let least = form.split(' ').filter(|name| !name.starts_with('[')).count();
    least..=length(form)
}

/// As many words as none of the forms that begin with the line's first word.
fn unlike(found: usize, mut forms: Vec<String>) -> Bad {
    forms.sort_by_key(|form| length(form));
    let belong: Vec<usize> = forms.iter().flat_map(|form| lengths(form)).collect();
    let fault = if belong.iter().all(|length| found < *length) { "few" } else { "many" };
    let belong: Vec<String> = belong.iter().map(usize::to_string).collect();
    let (belong, forms) = (belong.join(" or "), forms.join(", or "));
    Bad(format!("too {fault} words, {found} and not {belong}: {forms}"))
}

/// Between two words stands one space, and none at an end.
fn spaced(line: &str) -> Result<(), Bad> {
    let bad = |what: &str| Err(Bad(what.to_string()));
    if line.ends_with('\r') {
        return bad("a carriage return at its end; a newline alone ends a line");
    }
    if line.contains('\t') {
        return bad("a tab; between two words stands one space");
    }
    if line.starts_with(' ') {
        return bad("a space at its start");
    }
    if line.ends_with(' ') {
        return bad("a space at its end");
    }
    line.find("  ").map_or(Ok(()), |at| {
        Err(Bad(format!("two spaces after word {}", line[..at].split(' ').count())))
    })
}

/// A first word that no line has; other case is the likeliest slip.
fn unknown(word: &str) -> Bad {
    let shown = shown(word.as_bytes());
    let mut firsts: Vec<&str> = forms().map(first).collect();
    firsts.dedup();
    match firsts.iter().find(|first| first.eq_ignore_ascii_case(word)) {
        Some(first) => Bad(format!("\"{shown}\" is written {first}")),
        None => Bad(format!(
            "no line begins with \"{shown}\"; the first words are {}",
            firsts.join(", ")
        )),
    }
}

fn width(words: &mut Words<'_>) -> Result<Step, Bad> {
    Ok(Step::Width {
        font: words.up_to(FONTS as u64 - 1)?,
        code_point: words.byte()?,
        width: words.width()?,
    })
}

fn open(words: &mut Words<'_>) -> Result<Step, Bad> {
    Ok(Step::Open { slot: words.long()?, key: words.long()?, descriptor: words.descriptor()? })
}

fn submit(words: &mut Words<'_>) -> Result<Step, Bad> {
    Ok(Step::Submit {
        slot: words.long()?,
        key: words.long()?,
        number: words.long()?,
        part: words.bytes()?,
    })
}

fn take(words: &mut Words<'_>) -> Result<Step, Bad> {
    Ok(Step::Take { slot: words.long()?, key: words.long()?, total: words.up_to(u64::MAX)? })
}

fn bytes(words: &mut Words<'_>) -> Result<Step, Bad> {
    let (slot, from, to) = (words.slot()?, words.up_to(AREA as u64)?, words.up_to(AREA as u64)?);
    if from > to {
        return Err(Bad(format!("FROM {from} is above TO {to}")));
    }
    Ok(Step::Bytes { slot, from, to })
}
