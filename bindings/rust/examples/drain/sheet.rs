//! A job and its records as lines, in the form of replay's `show`, which tools/page draws.

use halviruso::{Entry, Record, Records, ABSENT};

fn print_record(record: Record) {
    match record {
        Record::Text { i, b, font, colour, adjustment, space, characters } => {
            let space = space.map_or(ABSENT, u32::from);
            let mut hex: String = characters.iter().map(|byte| format!("{byte:02X}")).collect();
            if hex.is_empty() {
                hex.push('-');
            }
            println!("T {i} {b} {font} {colour} {adjustment} {space} {hex}");
        }
        Record::Rule { i, b, axis, colour, length, width } => {
            println!("R {i} {b} {axis} {colour} {length} {width}");
        }
    }
}

/// The entry's numbers, in the order of replay's `set`.
fn numbers(entry: &Entry) -> Vec<i64> {
    let (d, s) = (&entry.descriptor, &entry.state);
    let opened = [
        entry.key,
        entry.mark,
        d.size.i,
        d.size.b,
        d.initial.i,
        d.initial.b,
        d.margin,
        d.increment,
        d.adjustment,
        d.direction,
        d.font,
        d.colour,
        d.rule,
        d.hidden,
    ];
    let stands = [
        s.margin,
        s.increment,
        s.adjustment,
        s.direction,
        s.font,
        s.colour,
        s.space,
        s.suppression,
        s.chain,
        entry.next,
        s.used,
        entry.taken,
    ];
    opened.map(i64::from).into_iter().chain([s.i(), s.b()]).chain(stands.map(i64::from)).collect()
}

/// The job, all that was printed of it, and the end.
pub fn print_job(entry: &Entry, paper: &[u8]) {
    let words: Vec<String> = numbers(entry).iter().map(i64::to_string).collect();
    println!("JOB {}", words.join(" "));
    Records::new(paper).for_each(print_record);
    println!("END");
}
