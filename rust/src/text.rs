//! Bracket text: command lines read into rows, and rows written as text.

use crate::commands::{Args, Entry, Kind, COMMANDS};
use crate::{check, check_predicate, Refusal};

/// A command, with the text and the row of its list and of its form.
struct Line<'a> {
    entry: &'static Entry,
    offset: i32,
    list: Group<'a>,
    form: Group<'a>,
}

/// A bracket group: its text and its words in order.
#[derive(Clone, Default)]
struct Group<'a> {
    text: &'a str,
    row: Vec<u32>,
}

/// A word without leading zeros at the front of the text, and the text after it.
fn word(text: &str) -> Option<(u32, &str)> {
    let end = text.bytes().position(|b| !b.is_ascii_digit()).unwrap_or(text.len());
    let digits = &text[..end];
    if digits.len() > 1 && digits.starts_with('0') {
        return None;
    }
    Some((digits.parse().ok()?, &text[end..]))
}

/// A group at the front of the text, and the text after it. In a place list a group directly inside gives 0 if it
/// is empty, and 1 before its words if not.
fn group(text: &str, places: bool) -> Option<(Group<'_>, &str)> {
    let mut row = Vec::new();
    let mut rest = text;
    let mut depth = 0;
    // whether an item may stand here, and whether it may be left out
    let (mut item, mut opened) = (true, false);
    loop {
        match rest.as_bytes().first()? {
            b'[' if item => {
                rest = &rest[1..];
                depth += 1;
                if places && depth == 2 {
                    row.push(if rest.starts_with(']') { 0 } else { 1 });
                }
                opened = true;
            }
            b']' if opened || !item => {
                rest = &rest[1..];
                depth -= 1;
                if depth == 0 {
                    let text = &text[..text.len() - rest.len()];
                    return Some((Group { text, row }, rest));
                }
                (item, opened) = (false, false);
            }
            b' ' if !item => {
                rest = &rest[1..];
                item = true;
            }
            b'0'..=b'9' if item && depth > 0 => {
                let (w, after) = word(rest)?;
                row.push(w);
                rest = after;
                (item, opened) = (false, false);
            }
            _ => return None,
        }
    }
}

/// A signed 32-bit number, never `-0`, at the front of the text, and the text after it.
fn offset(text: &str) -> Option<(i32, &str)> {
    match text.strip_prefix('-') {
        None => word(text).and_then(|(w, rest)| Some((i32::try_from(w).ok()?, rest))),
        Some(text) => {
            let (w, rest) = word(text)?;
            let z = i32::try_from(-i64::from(w)).ok()?;
            (w != 0).then_some((z, rest))
        }
    }
}

fn command(line: &str) -> Option<Line<'_>> {
    if line.len() > 65535 {
        return None;
    }
    let (entry, rest) = COMMANDS.iter().find_map(|entry| Some((entry, line.strip_prefix(entry.head)?)))?;
    let mut z = 0;
    let mut list = Group::default();
    let rest = match entry.args {
        Args::Nothing => rest,
        Args::Offset => {
            let (value, rest) = offset(rest)?;
            z = value;
            rest.strip_prefix(' ')?
        }
        Args::Names | Args::Pairs | Args::Places => {
            let (got, rest) = group(rest, matches!(entry.args, Args::Places))?;
            list = got;
            rest.strip_prefix(' ')?
        }
    };
    let (form, rest) = group(rest, false)?;
    (rest == "]").then_some(Line { entry, offset: z, list, form })
}

/// The number of own words after the tag at the front of the row, and of children.
fn shape(row: &[u32]) -> Option<(usize, usize)> {
    let at = |i: usize| row.get(i).map(|w| *w as usize);
    Some(match row.first()? {
        1 | 2 | 3 | 7 => (1, 0),
        401..=412 | 610 | 611 => (0, 0),
        4 | 10 | 301..=307 | 351 | 352 => (1, at(1)?),
        11 => (2, at(2)?),
        5 | 8 | 9 | 751..=757 | 761..=764 => (0, 1),
        6 | 101..=112 | 201..=227 | 251 | 252 => (0, 2),
        801..=803 => (2 + at(2)?, 2),
        851 | 852 => (1 + at(1)?, 1),
        _ => return None,
    })
}

/// Writes the form at the front of the row, and returns the words after it.
fn spell_form<'a>(row: &'a [u32], out: &mut String) -> Option<&'a [u32]> {
    let (own, children) = shape(row)?;
    let words = row.get(..1 + own)?;
    let words: Vec<String> = words.iter().map(u32::to_string).collect();
    out.push('[');
    out.push_str(&words.join(" "));
    let mut rest = &row[1 + own..];
    for _ in 0..children {
        out.push(' ');
        rest = spell_form(rest, out)?;
    }
    out.push(']');
    Some(rest)
}

/// A row that is one form, as text.
pub fn spell(row: &[u32]) -> Option<String> {
    let mut out = String::new();
    spell_form(row, &mut out)?.is_empty().then_some(out)
}

/// A row of names as text.
fn spell_names(row: &[u32]) -> String {
    let words: Vec<String> = row.iter().map(u32::to_string).collect();
    format!("[{}]", words.join(" "))
}

/// A list of names and expressions, or of places, as text.
fn spell_list(mut row: &[u32], places: bool) -> Option<String> {
    let mut items = Vec::new();
    while let Some((w, rest)) = row.split_first() {
        let mut item = String::new();
        if places && *w == 0 {
            row = rest;
            item.push_str("[]");
        } else {
            row = spell_form(rest, &mut item)?;
            if !places {
                item = format!("[{w} {item}]");
            }
        }
        items.push(item);
    }
    Some(format!("[{}]", items.join(" ")))
}

/// A form's 1 and 2.
fn check_form(row: &[u32], kind: Kind) -> Result<(), Refusal> {
    match kind {
        Kind::Either => check(row),
        Kind::Predicate => check_predicate(row),
        Kind::NamedRow => early(crate::named(row, &mut []).map(|_| ())),
    }
}

/// 8 where the brackets of a group do not hold its nodes.
fn held(group: &Group, spelled: Option<String>) -> Result<(), Refusal> {
    if spelled.as_deref() == Some(group.text) {
        Ok(())
    } else {
        Err(Refusal::NotACommand)
    }
}

/// A row's 1 and 2; its other refusals come after its 8.
fn early(checked: Result<(), Refusal>) -> Result<(), Refusal> {
    match checked {
        Err(Refusal::TooLong | Refusal::NotAForm(_)) => checked,
        _ => Ok(()),
    }
}

/// Runs commands, with rows of its own.
pub struct Runner {
    work: Vec<u32>,
    out: Vec<u32>,
}

impl Default for Runner {
    fn default() -> Self {
        Runner { work: vec![0; crate::WORK_WORDS], out: vec![0; crate::MAX_WORDS] }
    }
}

impl Runner {
    /// The row that a command line is answered.
    pub fn run(&mut self, line: &str) -> Result<&[u32], Refusal> {
        let Line { entry, offset, list, form } = command(line).ok_or(Refusal::NotACommand)?;
        check_form(&form.row, entry.kind)?;
        held(&form, spell(&form.row))?;
        match entry.args {
            Args::Nothing | Args::Offset => {}
            Args::Names => {
                early(crate::check_names(&list.row))?;
                held(&list, Some(spell_names(&list.row)))?;
            }
            Args::Pairs => {
                early(crate::check_pairs(&list.row))?;
                held(&list, spell_list(&list.row, false))?;
            }
            Args::Places => {
                early(crate::check_places(&list.row, 0))?;
                held(&list, spell_list(&list.row, true))?;
            }
        }
        let n = crate::run(entry.command, offset, &list.row, &form.row, &mut self.work, &mut self.out)?;
        Ok(&self.out[..n])
    }

    /// The line that a command line is answered: a form, `[no 2 p]`, or `[no k]`.
    pub fn answer(&mut self, line: &str) -> String {
        match self.run(line) {
            Ok(row) => spell(row).expect("an answer is one form"),
            Err(Refusal::NotAForm(p)) => format!("[no 2 {p}]"),
            Err(refusal) => format!("[no {}]", refusal.number()),
        }
    }
}
