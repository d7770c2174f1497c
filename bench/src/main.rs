//! The proved library's time beside the peer's and plain C's, on the same parts in the same run.

mod agree;
mod case;
mod clock;
mod contender;
mod foreign;
mod submits;
mod table;
mod takes;
mod workloads;
mod write;

use std::env;
use std::path::{Path, PathBuf};
use std::process::ExitCode;

use clock::{copying, interpreting, rounds, Effort, Run, Spread, Times};
use contender::{Contender, PEER, PLAIN};
use peer::replay::Peer;
use submits::{asking, histories, told, History};
use table::{figures, ratio, Table};
use takes::{moving, taking, takings, Taking};
use workloads::{Unit, Workload, SIZES};

const USAGE: &str = "usage: bench [--markdown] [--quick] [--others] | --write FOLDER";

/// What is asked for.
#[derive(Clone, Default)]
struct Options {
    markdown: bool,
    quick: bool,
    others: bool,
    /// Only leave the parts in this folder.
    write: Option<PathBuf>,
}

fn options() -> Option<Options> {
    let mut options = Options::default();
    let mut words = env::args_os().skip(1);
    while let Some(word) = words.next() {
        match word.to_str()? {
            "--write" => options.write = Some(words.next()?.into()),
            "--markdown" => options.markdown = true,
            "--quick" => options.quick = true,
            "--others" => options.others = true,
            _ => return None,
        }
    }
    Some(options)
}

fn main() -> ExitCode {
    let Some(options) = options() else {
        eprintln!("{USAGE}");
        return ExitCode::from(2);
    };
    if let Some(folder) = options.write.as_deref() {
        return ended(write(folder));
    }
    if contender::proved().is_none() && !options.others {
        println!(
            "not measured: the proved library is x86-64 code, and this machine is {}.",
            env::consts::ARCH
        );
        println!("bench/here compiles it for this one. --others times the peer and plain C alone.");
        return ExitCode::FAILURE;
    }
    ended(bench(&options))
}

fn ended(how: Result<(), String>) -> ExitCode {
    match how {
        Ok(()) => ExitCode::SUCCESS,
        Err(error) => {
            println!("{error}");
            ExitCode::FAILURE
        }
    }
}

fn all_workloads() -> Result<Vec<Workload>, String> {
    let root = Path::new(env!("CARGO_MANIFEST_DIR")).join("..");
    workloads::all(&root).map_err(|error| format!("tests/real: {error}"))
}

fn write(folder: &Path) -> Result<(), String> {
    workloads::write(&all_workloads()?, folder)
        .and_then(|()| takes::write(folder))
        .map_err(|error| format!("{}: {error}", folder.display()))
}

fn bench(options: &Options) -> Result<(), String> {
    let workloads = all_workloads()?;
    let growing = workloads::growing();
    let contenders: Vec<Contender> = contender::proved().into_iter().chain([PEER, PLAIN]).collect();
    let mut compared = agree::on_generated(&contenders)?;
    compared += agree::on_workloads(&contenders, &workloads)?;
    for (_, row) in &growing {
        compared += agree::on_workloads(&contenders, row)?;
    }
    println!("{compared} parts: all {} contenders say the same", contenders.len());
    let takings = takings();
    let taken = agree::on_generated_takes(&contenders)? + agree::on_takings(&contenders, &takings)?;
    println!("{taken} takes: they say the same\n");
    let effort = match options.quick {
        true => Effort { rounds: 5, passes: 2 },
        false => Effort { rounds: 40, passes: 5 },
    };
    interpreted(&contenders, &workloads, effort).print(options.markdown);
    requested(&workloads, effort)?.print(options.markdown);
    taken_from(&contenders, &takings, effort).print(options.markdown);
    linear(&contenders, &growing, effort).print(options.markdown);
    Ok(())
}

/// The times by contender's name; none where it wasn't measured.
fn of<'a>(contenders: &[Contender], times: &'a Times, name: &str) -> Option<&'a Vec<f64>> {
    contenders.iter().position(|contender| contender.name == name).map(|at| &times[at])
}

/// How many times faster the first is than the better of the others, round by round.
fn speed(first: Option<&Vec<f64>>, others: &[&Vec<f64>]) -> Option<Spread> {
    let middle = |times: &Vec<f64>| Spread::of(times.clone()).middle;
    let best = others.iter().min_by(|a, b| middle(a).total_cmp(&middle(b)))?;
    Some(Spread::of(first?.iter().zip(best.iter()).map(|(own, other)| other / own).collect()))
}

/// A time for one unit.
fn cell(times: Option<&Vec<f64>>, units: usize) -> String {
    times.map_or_else(
        || "-".to_string(),
        |times| figures(Spread::of(times.clone()).middle / units as f64),
    )
}

/// Passes over all workloads: for each, the times of each contender and of copying.
fn passes(contenders: &[Contender], workloads: &[&Workload], effort: Effort) -> Vec<Times> {
    let mut all: Vec<Times> = vec![Times::new(); workloads.len()];
    for _ in 0..effort.passes {
        for (workload, times) in workloads.iter().zip(&mut all) {
            let mut runs: Vec<Run<'_>> = contenders
                .iter()
                .map(|contender| interpreting(contender.interpret, workload))
                .collect();
            runs.push(copying(workload));
            rounds(&mut runs, effort.rounds, times);
        }
    }
    all
}

fn interpreted(contenders: &[Contender], workloads: &[Workload], effort: Effort) -> Table {
    let mut table = Table::new(&[
        "interpreting, ns per unit",
        "unit",
        "bytes",
        "proved",
        "peer",
        "C",
        "proved's speed",
        "copy",
    ]);
    let every: Vec<&Workload> = workloads.iter().collect();
    for (workload, times) in workloads.iter().zip(passes(contenders, &every, effort)) {
        let get = |name| of(contenders, &times, name);
        let others: Vec<&Vec<f64>> = [get("peer"), get("C")].into_iter().flatten().collect();
        let units = workload.units();
        let unit = match workload.unit {
            Unit::Byte => "byte",
            Unit::Character => "character",
            Unit::Part => "part",
        };
        table.row(vec![
            workload.name.to_string(),
            unit.to_string(),
            (workload.bytes() / workload.cases.len()).to_string(),
            cell(get("proved"), units),
            cell(get("peer"), units),
            cell(get("C"), units),
            ratio(speed(get("proved"), &others)),
            cell(times.last(), units),
        ]);
    }
    table
}

#[cfg(linked)]
fn hub_run(history: &History) -> Option<Run<'_>> {
    Some(asking(foreign::Proved, history))
}

#[cfg(not(linked))]
fn hub_run(_: &History) -> Option<Run<'_>> {
    None
}

#[cfg(linked)]
fn hub_says_the_same(history: &History) -> bool {
    told(foreign::Proved, history) == told(Peer, history)
}

/// Without the library only that the peer takes every request.
#[cfg(not(linked))]
fn hub_says_the_same(history: &History) -> bool {
    told(Peer, history).0.iter().all(|&code| code <= 1)
}

fn requested(workloads: &[Workload], effort: Effort) -> Result<Table, String> {
    let mut table =
        Table::new(&["requests per second, thousands", "proved", "peer", "proved's speed"]);
    let real = workloads.iter().find(|workload| workload.name.starts_with("real parts accepted"));
    let real =
        real.and_then(|workload| workload.cases.first()).ok_or("no real part is accepted")?;
    for history in histories(&real.part) {
        if !hub_says_the_same(&history) {
            return Err(format!("{}: the hubs differ", history.name));
        }
        let mut times = Times::new();
        for _ in 0..effort.passes {
            let mut runs: Vec<Run<'_>> =
                hub_run(&history).into_iter().chain([asking(Peer, &history)]).collect();
            rounds(&mut runs, effort.rounds, &mut times);
        }
        let peers = times.pop().unwrap_or_default();
        let proved = times.pop();
        let each_second = |times: &Vec<f64>| {
            figures(history.requests() as f64 * 1e6 / Spread::of(times.clone()).middle)
        };
        table.row(vec![
            history.name.to_string(),
            proved.as_ref().map_or_else(|| "-".to_string(), each_second),
            each_second(&peers),
            ratio(speed(proved.as_ref(), &[&peers])),
        ]);
    }
    Ok(table)
}

/// Takes from a full area of 4,096 bytes, beside moving the bytes and no more.
fn taken_from(contenders: &[Contender], takings: &[Taking], effort: Effort) -> Table {
    let mut table = Table::new(&[
        "ns per take",
        "bytes moved",
        "proved",
        "per byte moved",
        "peer",
        "C",
        "proved's speed",
        "memmove",
    ]);
    for one in takings {
        let mut times = Times::new();
        for _ in 0..effort.passes {
            let mut runs: Vec<Run<'_>> =
                contenders.iter().map(|contender| taking(contender.take, one)).collect();
            runs.push(moving(one));
            rounds(&mut runs, effort.rounds, &mut times);
        }
        let get = |name| of(contenders, &times, name);
        let others: Vec<&Vec<f64>> = [get("peer"), get("C")].into_iter().flatten().collect();
        let moved = one.moved();
        table.row(vec![
            one.name.to_string(),
            moved.to_string(),
            cell(get("proved"), 1),
            cell(get("proved").filter(|_| moved > 0), moved),
            cell(get("peer"), 1),
            cell(get("C"), 1),
            ratio(speed(get("proved"), &others)),
            cell(times.last(), 1),
        ]);
    }
    table
}

/// Time for one byte at four sizes: level rows are linear cost.
fn linear(contenders: &[Contender], growing: &[(&str, Vec<Workload>)], effort: Effort) -> Table {
    let heads: Vec<String> = SIZES.iter().map(|size| format!("{size} bytes")).collect();
    let mut heading = vec!["ns per byte at four sizes", "who"];
    heading.extend(heads.iter().map(String::as_str));
    let mut table = Table::new(&heading);
    for (name, row) in growing {
        let every: Vec<&Workload> = row.iter().collect();
        let all = passes(contenders, &every, effort);
        for contender in contenders {
            let mut words = vec![name.to_string(), contender.name.to_string()];
            for (workload, times) in row.iter().zip(&all) {
                words.push(cell(of(contenders, times, contender.name), workload.units()));
            }
            table.row(words);
        }
    }
    table
}
