//! Cases from a seed, until the time is over.

use crate::call::{Answer, Call, Choices, Parts};
use crate::damage::{Damaged, damage};
use crate::judge::{Judged, judge, tables as read};
use crate::random::Random;
use crate::rooms;
use crate::rows::{LONG_TARGET, MOST_TARGET};
use crate::tester::Tester;
use crate::texts::LONG_TEXT;
use crate::world::{World, world};
use oracle::{MOST_CHARACTERS, Tables};
use std::time::{Duration, Instant};

/// the first parts are tables
const TABLES: usize = 4;
/// the mode that shows the path and its alternatives
const ALTERNATIVES: u8 = 2;
/// damaged calls of a world: some 30 % of its cases
const DAMAGED: usize = 10;

pub fn run(tester: &mut Tester, seconds: u64, seed: u64) {
    let name = format!("seed {seed}");
    let begun = Instant::now();
    let mut k = 0;
    while !tester.enough()
        && (begun.elapsed() < Duration::from_secs(seconds) || tester.spoil.done < tester.spoil.wanted)
    {
        let mut random = Random::of(seed, k);
        let world = world(&mut random);
        tester.long_targets.iter_mut().zip(world.long_targets).for_each(|(n, more)| *n += more as u64);
        let tables = read(parts(&world, &world.asked[0]));
        for asked in &world.asked {
            ask(tester, &name, &mut random, parts(&world, asked), tables.as_ref());
        }
        for _ in 0..DAMAGED {
            ask_damaged(tester, &name, &mut random, &world, tables.as_ref());
        }
        k += 1;
    }
    let (cases, numbers) = (tester.cases, tester.by_number());
    let speed = cases as f64 / begun.elapsed().as_secs_f64();
    println!("in {} cases the choice of capitals has changed letters", tester.capitalized);
    println!("in {} cases the walk behind O ang ended at a space before what it would have found", tester.walk_ended);
    println!(
        "{} cases choose readings: {} of them list some, and {} readings were listed already",
        tester.chose_readings, tester.listed_readings, tester.kept_out
    );
    println!("in {} cases a decomposition has an edge", tester.decomposed);
    let [texts, longest] = tester.long_texts;
    println!("in {texts} cases a text that is read has over {LONG_TEXT} characters, in {longest} of them {MOST_CHARACTERS}");
    let [targets, longest] = tester.long_targets;
    println!("{targets} texts of rules have over {LONG_TARGET} bytes, {longest} of them {MOST_TARGET}");
    println!("{cases} cases, {} differ (seed {seed}: {numbers}), {speed:.0}/s", tester.differ());
}

fn parts<'a>(world: &'a World, (code, text): &'a (&'static str, String)) -> Parts<'a> {
    [&world.rules, &world.classes, &world.vowels, &world.decompositions, code.as_bytes(), text.as_bytes()]
}

fn some_choices(random: &mut Random) -> Choices {
    let [capitals, o_ang, readings] = [(); 3].map(|_| random.below(2) as u8);
    Choices { capitals, o_ang, readings }
}

/// one lattice in each mode, and some more, which are alternatives where there are readings; what is strange is strange in all of them
fn ask(tester: &mut Tester, name: &str, random: &mut Random, parts: Parts, tables: Option<&Tables>) {
    let choices = some_choices(random);
    let judged = judge(0, choices, parts, tables);
    let mut modes = vec![0, 1, 2, 3, random.below(4) as u8, random.below(4) as u8];
    let (listed, _) = judged.readings();
    if listed > 0 {
        modes.extend([ALTERNATIVES; 2]);
    }
    let asked = if judged.strange().is_some() { 1 } else { modes.len() };
    for mode in &modes[..asked] {
        test(tester, name, random, (*mode, choices), parts, &judged);
    }
}

/// as much as is likely to matter is lent where there is a lattice, anything where there is none
fn test(
    tester: &mut Tester,
    name: &str,
    random: &mut Random,
    (mode, choices): (u8, Choices),
    parts: Parts,
    judged: &Judged,
) {
    let lent = match judged {
        Judged::Shown(shown) => rooms::some(random, &shown.added, &shown.outputs[mode as usize]),
        _ => [random.below(100), random.below(60), random.below(60)],
    };
    let call = Call { mode, choices, parts, lent };
    tester.capitalized += judged.capitalized() as u64;
    tester.walk_ended += judged.walk_ended() as u64;
    tester.decomposed += judged.decomposed() as u64;
    count_long(tester, &call, judged);
    let wanted = judged.wanted(mode, lent);
    count_readings(tester, &call, &wanted, judged);
    tester.test(name, &call, &wanted, judged.strange(), random.next());
}

fn count_long(tester: &mut Tester, call: &Call, judged: &Judged) {
    let [.., text] = call.parts;
    if text.len() > LONG_TEXT && matches!(judged, Judged::Shown(_)) {
        let n = text.iter().filter(|b| **b & 0xC0 != 0x80).count();
        tester.long_texts[0] += (n > LONG_TEXT) as u64;
        tester.long_texts[1] += (n == MOST_CHARACTERS) as u64;
    }
}

/// readings are where alternatives are shown
fn count_readings(tester: &mut Tester, call: &Call, wanted: &Answer, judged: &Judged) {
    if call.choices.readings != 1 {
        return;
    }
    tester.chose_readings += 1;
    if call.mode == ALTERNATIVES && wanted.numbers.number == 0 {
        let (listed, kept_out) = judged.readings();
        tester.listed_readings += (listed > 0) as u64;
        tester.kept_out += kept_out as u64;
    }
}

fn ask_damaged(tester: &mut Tester, name: &str, random: &mut Random, world: &World, tables: Option<&Tables>) {
    let asked = &world.asked[random.below(world.asked.len())];
    let whole = parts(world, asked);
    let mut damaged: Damaged = whole.map(<[u8]>::to_vec);
    let (mut mode, mut choices) = (random.below(4) as u8, some_choices(random));
    damage(random, &mut mode, &mut choices, &mut damaged);
    let parts = damaged.each_ref().map(|part| &part[..]);
    let others = if parts[..TABLES] == whole[..TABLES] { None } else { Some(read(parts)) };
    let tables = match &others {
        None => tables,
        Some(others) => others.as_ref(),
    };
    let judged = judge(mode, choices, parts, tables);
    test(tester, name, random, (mode, choices), parts, &judged);
}
