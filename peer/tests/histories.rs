//! Generated histories: stored numbers right and wrong, each meeting what it matters to.

use std::collections::BTreeMap;
use std::ops::Range;

use peer::generate::{Reach, Requests};
use peer::replay::{Memory, Said};
use peer::script::Step;

/// What a number is to the open or close that meets it: its request, its place, the answer.
type Meeting = (&'static str, &'static str, u32);

fn place(stored: u32) -> &'static str {
    match stored {
        0 => "0",
        1 => "1",
        2..=14 => "2 to 14",
        15 => "15",
        16 => "16",
        17 => "17",
        18..=65_535 => "above",
        65_536..=0xFFFF_FFFE => "far above",
        u32::MAX => "the greatest",
    }
}

fn meeting(step: &Step, said: &Said, stored: u32) -> Option<Meeting> {
    match (step, said) {
        (Step::Open { .. }, Said::Answer(answer)) => Some(("open", place(stored), answer.code)),
        (Step::Close { .. }, Said::Answer(answer)) => Some(("close", place(stored), answer.code)),
        _ => None,
    }
}

fn is_right(memory: &Memory) -> bool {
    memory.stored == memory.walked()
}

/// Every step of some seeds, with the number stored before it and the one walked.
fn met(seeds: Range<u64>, mut each: impl FnMut(&Step, &Said, u32, u32)) {
    for seed in seeds {
        let mut requests = Requests::new(seed, Reach::Script);
        for _ in 0..400 {
            let memory = requests.replay().memory();
            let (stored, walked) = (memory.stored, memory.walked());
            let (step, said) = requests.next().expect("endless");
            each(&step, &said, stored, walked);
        }
    }
}

/// Whether a job is neither opened nor closed beside such a number.
fn is_refused(kind: &str, place: &str) -> bool {
    ["17", "above", "far above", "the greatest", if kind == "open" { "16" } else { "0" }]
        .contains(&place)
}

#[test]
fn every_place_of_the_number_is_met_by_both_requests_often() {
    let mut meetings: BTreeMap<Meeting, u32> = BTreeMap::new();
    met(0..100, |step, said, stored, _| {
        if let Some(meeting) = meeting(step, said, stored) {
            *meetings.entry(meeting).or_default() += 1;
        }
    });
    println!("{meetings:?}");
    for kind in ["open", "close"] {
        for place in [0, 1, 2, 15, 16, 17, 18, 65_536, u32::MAX].map(place) {
            let refused = is_refused(kind, place);
            let [done, wrong] = [0, 32].map(|code| meetings.get(&(kind, place, code)));
            let (met, never) = if refused { (wrong, done) } else { (done, wrong) };
            assert!(met >= Some(&20) && never.is_none(), "{kind} at {place}: {done:?}, {wrong:?}");
        }
        // The other refusals are met beside numbers that would be refused after them.
        let codes: &[u32] =
            if kind == "open" { &[1, 10, 11, 12, 13, 14, 15] } else { &[1, 10, 11, 12, 16] };
        for code in codes {
            let both = meetings.iter().filter(|(of, _)| (of.0, of.2) == (kind, *code));
            let times: u32 =
                both.filter(|(of, _)| is_refused(kind, of.1)).map(|(_, times)| times).sum();
            assert!(times >= 5, "{kind} {code}: {times}");
        }
    }
}

#[test]
fn requests_are_accepted_often_beside_right_numbers_and_wrong_ones() {
    let mut accepted: BTreeMap<(&str, bool), u32> = BTreeMap::new();
    let (mut steps, mut right_steps, mut wronged, mut mended) = (0, 0, 0, 0);
    met(40..100, |step, said, stored, walked| {
        let right = stored == walked;
        steps += 1;
        right_steps += u32::from(right);
        if let Step::Store(number) = *step {
            wronged += u32::from(right && number != walked);
            mended += u32::from(!right && number == walked);
        }
        let kind = match step {
            Step::Open { .. } => "open",
            Step::Submit { .. } => "submit",
            Step::Take { .. } => "take",
            Step::Close { .. } => "close",
            _ => return,
        };
        let done = matches!(said, Said::Answer(answer) if answer.is_done());
        *accepted.entry((kind, right)).or_default() += u32::from(done);
    });
    println!(
        "{accepted:?}, {right_steps} of {steps} right, {wronged} times wrong, {mended} mended"
    );
    for (kind, times) in [("open", 400), ("submit", 1_000), ("take", 300), ("close", 100)] {
        assert!(
            accepted[&(kind, true)] >= times && accepted[&(kind, false)] >= times / 4,
            "{kind}"
        );
    }
    assert!(right_steps >= steps / 2 && right_steps <= 9 * steps / 10);
    assert!(wronged >= 100 && mended >= 100);
}

/// Histories that leave the number to the requests; the table is set, and set out of range, in them too.
#[test]
fn one_history_in_three_never_touches_the_number_which_is_the_count_throughout() {
    let (mut histories, mut done, mut sets, mut full) = (0, 0, 0, 0);
    for seed in 100..190 {
        let mut requests = Requests::new(seed, Reach::Memory);
        let mut kept = (0, 0, 0);
        let keeps = (0..400).all(|_| {
            let (step, said) = requests.next().expect("endless");
            let memory = requests.replay().memory();
            kept.0 += u32::from(matches!(said, Said::Answer(answer) if answer.is_done()));
            kept.1 += u32::from(matches!(step, Step::Set { .. }));
            kept.2 += u32::from(memory.stored == 16);
            assert!(is_right(memory) || !matches!(step, Step::Fresh), "fresh is right");
            !matches!(step, Step::Store(_)) && is_right(memory)
        });
        if keeps {
            histories += 1;
            (done, sets, full) = (done + kept.0, sets + kept.1, full + kept.2);
        }
    }
    println!(
        "{histories} of 90: {done} done, {sets} entries set, {full} steps with all slots open"
    );
    assert!((20..=45).contains(&histories), "{histories}");
    assert!(done >= 2_000 && sets >= 200 && full >= 100, "{done}, {sets}, {full}");
}

/// All slots are opened, then all closed, and so on, with any other requests between.
#[test]
fn requests_alone_keep_the_number_right_from_a_fresh_start() {
    let (mut done, mut full, mut none) = (0, 0, 0);
    for seed in 200..220 {
        let mut requests = Requests::new(seed, Reach::Script);
        let mut closes = false;
        for at in 0..300 {
            let step = if at % 2 == 0 { requests.due(closes) } else { requests.request() };
            let said = requests.make(&step);
            let memory = requests.replay().memory();
            assert!(is_right(memory), "{step}: {}", memory.stored);
            let Said::Answer(answer) = said else { panic!("{step} is a request") };
            assert_ne!(answer.code, 32, "{step}");
            closes = if closes { memory.stored > 0 } else { memory.stored == 16 };
            done += u32::from(answer.is_done());
            full += u32::from(memory.stored == 16);
            none += u32::from(memory.stored == 0);
        }
    }
    println!("{done} done, {full} times all slots open, {none} times none");
    assert!(done >= 3_000 && full >= 60 && none >= 60, "{done}, {full}, {none}");
}
