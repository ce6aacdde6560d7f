//! Calls of files: the library, the oracle and the checker are held against the recorded answers.

use crate::call::{Answer, Call};
use crate::callfile;
use crate::compare::told;
use crate::judge::{judge, tables};
use crate::random::Random;
use crate::spoil::Spoil;
use crate::tester::Tester;

pub fn run(tester: &mut Tester, paths: &[String]) -> Result<(), String> {
    let files = paths.iter().map(|path| callfile::bytes(path)).collect::<Result<Vec<_>, _>>()?;
    let mut read = Vec::new();
    for (path, bytes) in paths.iter().zip(&files) {
        read.push((path, callfile::calls(bytes).ok_or_else(|| format!("{path} is cut short"))?));
    }
    let all: u64 = read.iter().map(|(_, calls)| calls.len() as u64).sum();
    let wanted = tester.spoil.wanted;
    tester.spoil = Spoil::new(wanted, all.checked_div(wanted).unwrap_or(1), 1);
    let mut random = Random::of(0, 0);
    for (path, calls) in &read {
        // a file of one call is such a case already
        tester.keeps = calls.len() > 1;
        for (k, (call, recorded)) in calls.iter().enumerate() {
            tester.test(&format!("{path} call {k},"), call, recorded, unlike(call, recorded), random.next());
        }
    }
    println!("{} calls, {} differ", tester.cases, tester.differ());
    Ok(())
}

/// how oracle and checker differ from what is recorded
fn unlike(call: &Call, recorded: &Answer) -> Option<String> {
    let tables = tables(call.parts);
    let judged = judge(call.mode, call.choices, call.parts, tables.as_ref());
    judged.strange().or_else(|| {
        let wanted = judged.wanted(call.mode, call.lent);
        let both = || format!("{}, recorded {}", told(&wanted.numbers), told(&recorded.numbers));
        (wanted != *recorded).then(|| format!("oracle and checker say {}", both()))
    })
}
