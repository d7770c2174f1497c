//! What docs/REPLAY.md says of scripts, against the scripts that are read and run.

#[path = "common/document.rs"]
mod document;

use std::fs;
use std::path::Path;

use document::{blocks, is_code, scripts};
use peer::replay::{Peer, Replay};
use peer::script::{forms, Step};

fn text() -> String {
    let path = Path::new(env!("CARGO_MANIFEST_DIR")).join("../docs/REPLAY.md");
    fs::read_to_string(path).expect("docs/REPLAY.md")
}

/// The cells of the table that has this first line.
fn table(first: &str) -> Vec<Vec<String>> {
    let text = text();
    let rows = text.lines().skip_while(|line| *line != first).skip(2);
    let rows = rows.take_while(|line| line.starts_with('|'));
    rows.map(|row| row.trim_matches(['|', ' ']).split(" | ").map(str::to_owned).collect()).collect()
}

/// What stands between backticks.
fn quoted(cell: &str) -> Vec<&str> {
    cell.split('`').skip(1).step_by(2).collect()
}

/// A form without its word in brackets and with it; the same twice, if it has none.
fn both(form: &str) -> [String; 2] {
    let short = form.split(" [").next().unwrap_or_default();
    [short.to_string(), form.replace(['[', ']'], "")]
}

/// Every form that a line can have.
fn whole_forms() -> Vec<String> {
    let mut forms: Vec<String> = forms().flat_map(both).collect();
    forms.dedup();
    forms
}

/// A line of this form in which the word `name` is `value`; for D, each of its twelve.
fn line(form: &str, name: &str, value: &str) -> String {
    let word = |of: &str| match of {
        _ if of == name => value.to_string(),
        "HEX" => "C1".to_string(),
        "FROM" => "0".to_string(),
        "TO" => "4096".to_string(),
        _ => "1".to_string(),
    };
    let words = form.split(' ').enumerate().map(|(at, of)| match of {
        _ if at == 0 => of.to_string(),
        "D" => [(); 12].map(|()| word(of)).join(" "),
        _ => word(of),
    });
    words.collect::<Vec<_>>().join(" ")
}

/// The first word of a line, and how many words it has.
fn shape(line: &str) -> (Option<&str>, usize) {
    (line.split(' ').next(), line.split(' ').count())
}

fn printed(script: &str) -> String {
    let mut out = Vec::new();
    Replay::new(Peer).run(script.as_bytes(), &mut out).expect(script);
    String::from_utf8(out).expect("plain text")
}

const LINES: &str = "| Line | What it does | What it prints |";
const RANGES: &str = "| Words | In | Least | Greatest |";

#[test]
fn the_table_has_the_lines_that_are_read() {
    let told: Vec<String> = table(LINES).iter().map(|row| quoted(&row[0]).concat()).collect();
    assert_eq!(told, forms().collect::<Vec<_>>());
}

#[test]
fn each_line_of_the_table_prints_something_or_nothing_as_told() {
    let rows = table(LINES);
    let forms = rows.iter().flat_map(|row| both(quoted(&row[0])[0]).map(|form| (row, form)));
    let lines: Vec<_> = forms.map(|(row, form)| (row, line(&form, "", ""))).collect();
    for (row, line) in &lines {
        let out = printed(&format!("{line}\n"));
        assert_eq!(out.is_empty(), row[2] == "nothing", "{line} prints {out:?}");
        // A word more or less makes another line of the table, or a bad one.
        let (more, fewer) =
            (format!("{line} 1"), line.rsplit_once(' ').map_or("", |(most, _)| most));
        for other in [&more, fewer] {
            let is_told = lines.iter().any(|(_, told)| shape(told) == shape(other));
            assert_eq!(Step::parse(other).is_ok(), is_told, "{other}");
        }
    }
}

/// The words that a row of the ranges is about, each with a form that has it.
fn named(row: &[String]) -> Vec<(String, &str)> {
    let mut found = Vec::new();
    for first in quoted(&row[1]) {
        let before = found.len();
        for form in whole_forms().iter().filter(|form| shape(form).0 == Some(first)) {
            let names = quoted(&row[0]).into_iter();
            let names = names.filter(|name| form.split(' ').any(|of| of == *name));
            found.extend(names.map(|name| (form.clone(), name)));
        }
        assert!(found.len() > before, "{first} has no word of {}", row[0]);
    }
    found
}

#[test]
fn the_least_and_the_greatest_numbers_are_taken_and_no_others() {
    let mut tried = 0;
    for row in table(RANGES) {
        let [least, greatest] =
            [&row[2], &row[3]].map(|end| end.parse::<i128>().expect("a number"));
        for (form, name) in named(&row) {
            for (value, is_taken) in
                [(least, true), (greatest, true), (least - 1, false), (greatest + 1, false)]
            {
                let line = line(&form, name, &value.to_string());
                assert_eq!(Step::parse(&line).is_ok(), is_taken, "{line}");
            }
            tried += 1;
        }
    }
    // Every word of every form but the first ones and HEX.
    let forms = whole_forms();
    let words = forms.iter().flat_map(|form| form.split(' ').skip(1));
    assert_eq!(tried, words.filter(|name| *name != "HEX").count());
}

#[test]
fn the_worked_scripts_print_what_stands_there() {
    let text = text();
    let scripts = scripts(&text);
    for (script, out) in &scripts {
        assert_eq!(printed(script), *out, "{script}");
    }
    // No script without what it prints; the other code is for a shell.
    let code = blocks(&text).into_iter().filter(|block| is_code(block[0]));
    let others = code
        .filter(|block| !["    $ ", "    make"].iter().any(|shell| block[0].starts_with(shell)));
    assert_eq!(others.count(), 2 * scripts.len());
    assert!(scripts.len() >= 2);
}
