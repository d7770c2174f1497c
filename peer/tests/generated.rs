//! Generated parts and requests: every answer occurs, and a refusal touches nothing.

use std::collections::BTreeMap;

use peer::generate::{case, sized_part, Case, Ground, Reach, Requests, Rng};
use peer::model::{AREA, RECORDS, SLOTS, WIDTHS};
use peer::reader::{
    read, Element, AMB, AMI, BSU, CHAIN, DBR, DIR, ESU, RPS, SBI, SCFL, SIA, SIM, STC, STO, SVI,
};
use peer::replay::{Memory, Peer, Replay, Said, Stopped};
use peer::script::Step;
use peer::{interpret, sheet, Answer, State};

const CODES: [u32; 24] =
    [0, 1, 10, 11, 12, 13, 14, 15, 16, 17, 18, 19, 20, 21, 22, 23, 24, 25, 26, 27, 28, 29, 30, 32];

#[test]
fn requests_meet_every_answer_often() {
    let mut met = [0; 33];
    let (mut accepted_long, mut accepted_full, mut most_elements) = (0, 0, 0);
    for seed in 0..28 {
        for (step, said) in Requests::new(seed, Reach::Script).take(1_000) {
            let Said::Answer(answer) = said else { continue };
            met[answer.code as usize] += 1;
            if let (Step::Submit { part, .. }, 0) = (&step, answer.code) {
                accepted_long += u32::from(part.len() > 4_000);
                accepted_full += u32::from(part.len() == 8_192);
                most_elements = most_elements.max(answer.first);
            }
        }
    }
    println!("{met:?} long {accepted_long} full {accepted_full} elements {most_elements}");
    for code in CODES {
        assert!(met[code as usize] >= 100, "{code}: {met:?}");
    }
    assert!(accepted_long >= 100 && accepted_full >= 20 && most_elements >= 1_000);
}

#[test]
fn direct_calls_meet_every_answer_and_refusals_touch_nothing() {
    let mut rng = Rng::new(1);
    let mut met = [0; 33];
    for _ in 0..20_000 {
        let mut now = case(&mut rng);
        let before = now.clone();
        let answer =
            interpret(&now.part, &now.widths, &mut now.area, &now.descriptor, &mut now.state);
        met[answer.code as usize] += 1;
        let (from, to) = (before.state.used as usize, now.state.used as usize);
        if answer.code == 0 {
            assert_eq!(to - from, answer.second as usize);
            assert!(now.state.in_range());
            assert!(now.area[..from] == before.area[..from] && now.area[to..] == before.area[to..]);
        } else {
            assert!(now.area == before.area && now.state == before.state);
            assert!(answer.second == 0 && (answer.code >= 20 || answer.first == 0));
        }
    }
    println!("{met:?}");
    for code in CODES {
        let direct = (19..=29).contains(&code) || [0, 10, 12, 15].contains(&code);
        assert!(met[code as usize] >= 100 || !direct, "{code}: {met:?}");
        assert!(met[code as usize] == 0 || direct, "{code}: {met:?}");
    }
}

/// What a direct call says.
fn asked(given: &Case) -> Answer {
    let Case { part, widths, area, descriptor, state } = &mut given.clone();
    interpret(part, widths, area, descriptor, state)
}

/// A code, the type if a value is wrong, the byte's place in its element, and whether in a chain.
type Class = (u32, u8, usize, bool);

/// A refusal of a generated part, and the element that it points into.
struct Refused {
    given: Case,
    answer: Answer,
    start: usize,
    chained: bool,
    /// Where LENGTH is, if the element is a sequence.
    length_at: usize,
}

impl Refused {
    fn new(given: Case, answer: Answer) -> Self {
        let (mut start, mut chained) = (0, given.state.chain != 0);
        while let Ok((element, size)) = read(&given.part[start..], chained) {
            if start + size > answer.first as usize {
                break;
            }
            start += size;
            chained = matches!(element, Element::Sequence { chains: true, .. });
        }
        let length_at = start + if chained { 0 } else { 2 };
        Self { given, answer, start, chained, length_at }
    }

    /// The refusals 20 to 29 among so many parts.
    fn some(seed: u64, parts: usize) -> impl Iterator<Item = Self> {
        let mut rng = Rng::new(seed);
        let cases = std::iter::repeat_with(move || case(&mut rng)).take(parts);
        cases.filter_map(|given| {
            let answer = asked(&given);
            (answer.code >= 20).then(|| Self::new(given, answer))
        })
    }

    /// Whether the byte is one that the code names.
    fn points(&self) -> bool {
        let Self { start, chained, length_at, .. } = *self;
        let (part, first) = (&self.given.part, self.answer.first as usize);
        first < part.len()
            && match self.answer.code {
                21 => first == start + 1 && !chained,
                22 => first == length_at,
                23 => first == length_at + 1,
                24 | 25 => {
                    let end = length_at + usize::from(part[length_at]);
                    (length_at + 2..end).contains(&first)
                }
                _ => first == start,
            }
    }

    fn class(&self) -> Class {
        let function = match self.answer.code {
            24 | 25 => self.given.part[self.length_at + 1] & !CHAIN,
            _ => 0,
        };
        (self.answer.code, function, self.answer.first as usize - self.start, self.chained)
    }

    /// Whether the second parameter is at fault too, which shows when the first is mended.
    fn is_twofold(&self) -> bool {
        let first = self.answer.first as usize;
        if self.answer.code != 24 || first != self.length_at + 2 {
            return false;
        }
        let mut mended = self.given.clone();
        mended.part[first..].iter_mut().take(2).for_each(|byte| *byte = 0);
        asked(&mended) == Answer { first: self.answer.first + 2, ..self.answer }
    }
}

/// Types of two parameters that can be wrong.
const TWO: [u8; 4] = [SIA, STO, DIR, DBR];

/// Every place that a code names, of every type, in a chain or not.
fn classes(chained: bool) -> Vec<Class> {
    let length = if chained { 0 } else { 2 };
    let whole = [20, 26, 27, 28, 29].map(|code| (code, 0, 0, chained));
    let introducer = [(22, 0, length, chained), (23, 0, length + 1, chained)];
    let only = [AMI, AMB, SIM, SBI, SVI, STC, BSU, ESU, RPS];
    let only = only.map(|function| (24, function, length + 2, chained));
    let font = [(25, SCFL, length + 2, chained)];
    let first = TWO.map(|function| (24, function, length + 2, chained));
    let second = TWO.map(|function| (24, function, length + 4, chained));
    [&whole[..], &introducer, &only, &font, &first, &second].concat()
}

#[test]
fn refusals_point_at_a_byte_that_their_code_names_and_meet_every_one_often() {
    let mut behind: BTreeMap<Class, u32> = BTreeMap::new();
    let mut twofold = behind.clone();
    for refused in Refused::some(4, 20_000) {
        let Refused { answer, start, chained, .. } = refused;
        assert!(refused.points(), "{answer:?}, element at {start}, in a chain: {chained}");
        *behind.entry(refused.class()).or_default() += u32::from(start > 0);
        *twofold.entry(refused.class()).or_default() += u32::from(refused.is_twofold());
    }
    println!("{behind:?}");
    let wanted = [classes(false), classes(true), vec![(21, 0, 1, false)]].concat();
    for class in &wanted {
        assert!(behind.get(class) >= Some(&20), "{class:?}: {:?}", behind.get(class));
    }
    // No other place is named.
    assert_eq!(behind.len(), wanted.len(), "{behind:?}");
    for class in wanted.iter().filter(|class| TWO.contains(&class.1)) {
        let is_first = class.2 == if class.3 { 2 } else { 4 };
        assert!(twofold[class] >= 3 || !is_first, "{class:?}: {}", twofold[class]);
    }
}

/// The slot that a step may change, if any: refusals and looks change none. Steps that set memory
/// are left out.
fn changed(step: &Step, said: &Said) -> Option<Option<usize>> {
    match (step, said) {
        (_, Said::Answer(answer)) if answer.code != 0 => Some(None),
        (Step::Open { slot, .. } | Step::Close { slot, .. }, _) => Some(Some(*slot as usize)),
        (Step::Submit { slot, .. } | Step::Take { slot, .. }, _) => Some(Some(*slot as usize)),
        (Step::Direct { slot, .. }, _) => Some(Some(*slot)),
        (Step::Count | Step::Stored | Step::Show { .. } | Step::Bytes { .. }, _) => Some(None),
        (Step::Check { .. } | Step::CheckAt { .. }, _) => Some(None),
        _ => None,
    }
}

/// The records left after a take move down, and of its entry two numbers change.
fn drained(expected: &mut Memory, slot: usize, total: u64) {
    let entry = &mut expected.table[slot];
    let read = total as usize - entry.taken as usize;
    let left = expected.records[AREA * slot..][read..entry.state.used as usize].to_vec();
    entry.state.used = left.len() as u32;
    entry.taken = total as u32;
    expected.records[AREA * slot..][..left.len()].copy_from_slice(&left);
}

/// What a request may change: one entry, the record bytes it says it added, the number by one.
#[test]
fn requests_change_only_what_they_name() {
    for seed in 100..110 {
        let mut requests = Requests::new(seed, Reach::Memory);
        let mut before = requests.replay().memory().clone();
        for _ in 0..400 {
            let (step, said) = requests.next().expect("endless");
            let after = requests.replay().memory();
            let Some(slot) = changed(&step, &said) else {
                before = after.clone();
                continue;
            };
            let mut expected = before;
            if let (Some(slot), Said::Answer(answer)) = (slot, &said) {
                let added = answer.second as usize;
                let from =
                    AREA * slot + expected.table[slot].state.used as usize * usize::from(added > 0);
                expected.records[from..][..added].copy_from_slice(&after.records[from..][..added]);
                match step {
                    Step::Take { total, .. } => drained(&mut expected, slot, total),
                    _ => expected.table[slot] = after.table[slot],
                }
                match step {
                    Step::Open { .. } => expected.stored += 1,
                    Step::Close { .. } => expected.stored -= 1,
                    _ => {}
                }
            }
            assert!(expected == *after, "{step}");
            before = expected;
        }
    }
}

#[test]
fn scripts_say_what_their_values_say() {
    for seed in 200..206 {
        let (mut script, mut told) = (String::new(), String::new());
        for (step, said) in Requests::new(seed, Reach::Script).take(500) {
            let line = step.to_string();
            assert_eq!(Step::parse(&line).as_ref(), Ok(&step), "{line}");
            script += &format!("{line}\n");
            told += &said.to_string();
        }
        let mut out = Vec::new();
        Replay::new(Peer).run(script.as_bytes(), &mut out).expect("memory takes all");
        assert_eq!(String::from_utf8(out).expect("plain text"), told);
    }
}

#[test]
fn no_script_makes_it_panic_and_reasons_are_short_and_plain() {
    let mut rng = Rng::new(3);
    for seed in 300..310 {
        let steps = Requests::new(seed, Reach::Script).take(200);
        let lines: Vec<String> = steps.map(|(step, _)| step.to_string()).collect();
        for _ in 0..60 {
            let from = rng.size(lines.len());
            let mut script = lines[from..].join("\n").into_bytes();
            for _ in 0..rng.between(1, 8) {
                let at = rng.size(script.len());
                let any = rng.byte();
                script[at] = rng.pick(&[b' ', b'\n', b'-', b'0', b'9', b'#', 0xC3, any]);
            }
            let mut out = Vec::new();
            let Err(stopped) = Replay::new(Peer).run(&script[..], &mut out) else { continue };
            assert!(matches!(stopped, Stopped::Line { .. }), "memory takes all");
            let why = stopped.to_string();
            assert!(why.len() < 400 && why.bytes().all(|b| (b' '..=b'~').contains(&b)), "{why:?}");
        }
    }
}

#[test]
fn parts_come_in_every_size() {
    let mut rng = Rng::new(2);
    let descriptor = sheet::descriptor(sheet::SIX_LINES);
    let mut accepted = 0;
    for size in 0..=8_193 {
        let mut state = State::start(&descriptor);
        let ground = Ground { descriptor, state, widths: &sheet::WIDTHS_144 };
        let part = sized_part(&mut rng, &ground, size);
        assert_eq!(part.len(), size);
        let mut area = [0; AREA];
        let answer = interpret(&part, &sheet::WIDTHS_144, &mut area, &descriptor, &mut state);
        accepted += u32::from(answer.code == 0);
        assert!(size <= 8_192 || answer.code == 19);
    }
    println!("{accepted} of 8,194 accepted");
    assert!(accepted > 6_000, "{accepted}");
}

#[test]
fn lent_lengths_are_the_papers() {
    assert_eq!((SLOTS, AREA, RECORDS, WIDTHS), (16, 4_096, 65_536, 1_024));
}
