//! Generated takes: every place of a total met often, and long jobs whose records all come out.

use std::collections::BTreeMap;

use peer::generate::{Reach, Requests};
use peer::model::{AREA, RECORDS, SLOTS, WIDTHS};
use peer::record::ends;
use peer::replay::{Memory, Said};
use peer::script::{Lend, Step};
use peer::{interpret, Entry, State};

const RIGHT: Lend = Lend { table: SLOTS, records: RECORDS, widths: WIDTHS };

/// Where a total lies in an open job's area.
fn place(entry: &Entry, area: &[u8], total: u64) -> &'static str {
    let (taken, used) = (u64::from(entry.taken), u64::from(entry.state.used));
    let ends: Vec<u64> = ends(&area[..used as usize]).map(|end| taken + end as u64).collect();
    let last = ends.last().copied();
    match total {
        _ if total < taken => "below",
        _ if total == taken => "taken",
        u64::MAX => "the greatest number",
        _ if total > 0xFFFF_FFFF && ends.contains(&total) => "an end above",
        _ if total > 0xFFFF_FFFF && ends.contains(&(total & 0xFFFF_FFFF)) => "an end if cut",
        _ if total > 0xFFFF_FFFF => "above",
        0xFFFF_FFFF if ends.contains(&total) => "the greatest total",
        _ if Some(total) == last && total == taken + used => "all",
        _ if Some(total) == last => "all that is whole",
        _ if ends.contains(&total) => "an end",
        _ if total == taken + used => "used, behind rubbish",
        _ if total == taken + used + 1 => "one past",
        _ if total > taken + used => "past",
        _ if ends.contains(&(total + taken)) => "an end if nothing was taken",
        _ if last.is_none_or(|last| total > last) => "in rubbish",
        _ => "inside a record",
    }
}

const PLACES: [(&str, u32); 16] = [
    ("below", 1),
    ("taken", 1),
    ("the greatest number", 30),
    ("an end above", 30),
    ("an end if cut", 30),
    ("above", 30),
    ("the greatest total", 0),
    ("all", 0),
    ("all that is whole", 0),
    ("an end", 0),
    ("used, behind rubbish", 30),
    ("one past", 30),
    ("past", 30),
    ("an end if nothing was taken", 30),
    ("in rubbish", 30),
    ("inside a record", 30),
];

/// What a take meets: the lengths lent, the slot, the entry, or the place of its total.
fn met(memory: &Memory, lend: Lend, slot: u32, key: u32, total: u64) -> &'static str {
    if (lend.table, lend.records) != (RIGHT.table, RIGHT.records) {
        return "lent";
    }
    let Some(entry) = memory.table[..SLOTS].get(slot as usize) else { return "no slot" };
    match entry {
        _ if entry.is_damaged() => "damaged",
        _ if !entry.is_open() && entry.key == key => "closed",
        _ if entry.key != key => "another key",
        _ if lend.widths != WIDTHS => "widths lent wrong",
        _ => place(entry, memory.area(slot as usize), total),
    }
}

#[test]
fn every_place_of_a_total_is_met_often() {
    let mut times: BTreeMap<(&str, u32), u32> = BTreeMap::new();
    for seed in 0..200 {
        let mut requests = Requests::new(seed, Reach::Memory);
        for _ in 0..400 {
            let (memory, lend) = (requests.replay().memory().clone(), requests.replay().lend());
            let (step, said) = requests.next().expect("endless");
            let (Step::Take { slot, key, total }, Said::Answer(answer)) = (step, said) else {
                continue;
            };
            *times.entry((met(&memory, lend, slot, key, total), answer.code)).or_default() += 1;
        }
    }
    println!("{times:?}");
    let refused =
        [("lent", 10), ("no slot", 11), ("damaged", 12), ("closed", 16), ("another key", 16)];
    for of in PLACES.iter().chain(&refused) {
        assert!(times.get(of) >= Some(&10), "{of:?}: {:?}", times.get(of));
    }
    assert!(times.get(&("widths lent wrong", 0)) >= Some(&3));
    // No place has another answer.
    let answers = times.keys().filter(|of| of.0 != "widths lent wrong").count();
    assert_eq!(answers, PLACES.len() + refused.len());
}

/// The record bytes that a part gives where it is accepted.
fn given(memory: &Memory, slot: usize, part: &[u8]) -> Vec<u8> {
    let Entry { descriptor, state, .. } = memory.table[slot];
    let (mut state, mut area) = (State { used: 0, ..state }, [0; AREA]);
    let answer = interpret(part, &memory.widths[..WIDTHS], &mut area, &descriptor, &mut state);
    assert!(answer.is_done(), "{answer:?}");
    area[..state.used as usize].to_vec()
}

/// What the parts of a job gave, and how much of it was taken.
#[derive(Clone, Default)]
struct Job {
    given: Vec<u8>,
    taken: usize,
    /// The number of a part that found no room.
    waits: u32,
}

/// Every area holds what its job gave and nobody took.
fn holds(jobs: &[Job], memory: &Memory) {
    for (slot, job) in jobs.iter().enumerate() {
        let Entry { state, taken, .. } = memory.table[slot];
        assert_eq!(taken as usize, job.taken);
        assert!(memory.area(slot)[..state.used as usize] == job.given[job.taken..]);
    }
}

#[test]
fn all_that_the_parts_give_comes_out_in_order() {
    let (mut long, mut longest, mut resent, mut takes) = (0, 0, 0, 0);
    for seed in 0..30 {
        let mut requests = Requests::new(seed, Reach::Script);
        let mut jobs = vec![Job::default(); 3];
        for at in 0..400 {
            let step = requests.printing(at % 3);
            let before = requests.replay().memory().clone();
            let Said::Answer(answer) = requests.make(&step) else { panic!("{step} is a request") };
            match (&step, answer.code) {
                (Step::Open { slot, .. }, 0) => jobs[*slot as usize] = Job::default(),
                (Step::Submit { slot, number, .. }, 29) => jobs[*slot as usize].waits = *number,
                (Step::Submit { slot, number, part, .. }, 0) => {
                    let job = &mut jobs[*slot as usize];
                    job.given.extend(given(&before, *slot as usize, part));
                    resent += u32::from(std::mem::take(&mut job.waits) == *number);
                    long += u32::from(job.given.len() > AREA);
                    longest = longest.max(job.given.len());
                }
                (Step::Take { slot, total, .. }, 0) => {
                    let (slot, job) = (*slot as usize, &mut jobs[*slot as usize]);
                    let read = &before.area(slot)[..*total as usize - job.taken];
                    assert_eq!(*read, job.given[job.taken..*total as usize]);
                    job.taken = *total as usize;
                    takes += 1;
                }
                _ => {}
            }
            holds(&jobs, requests.replay().memory());
        }
    }
    println!(
        "{takes} takes, {long} parts beyond an area, {longest} bytes in one job, {resent} resent"
    );
    assert!(takes >= 600 && long >= 500 && longest >= 5 * AREA && resent >= 200);
}
