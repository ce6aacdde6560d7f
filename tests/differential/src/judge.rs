//! What a call must answer: by the checker where mode, choices, tables, code or text are refused, all else by the oracle;
//! both must agree on which it is.

use crate::call::{Answer, Choices, Lent, Parts};
use crate::refusals::refusal;
use crate::rooms::answered;
use oracle::{Shown, Tables, allowed_choices, allowed_code, allowed_text};

pub enum Judged {
    Refused(u64, u64),
    Shown(Shown),
    /// a finding by itself: what is wrong, and the refusal that the checker wants, if any
    Strange(&'static str, Option<(u64, u64)>),
}

/// what the oracle reads of the tables
pub fn tables([rules, classes, vowels, decompositions, ..]: Parts) -> Option<Tables> {
    Tables::read([rules, classes, vowels, decompositions])
}

/// `tables` are what the oracle read of the parts
pub fn judge(mode: u8, choices: Choices, parts: Parts, tables: Option<&Tables>) -> Judged {
    let refused = refusal(mode, choices, parts);
    let [.., code, text] = parts;
    let chosen = allowed_choices(choices.all());
    let allowed = || Some((tables?, chosen?, allowed_code(code)?, allowed_text(text)?));
    let accepted = if mode <= 3 { allowed() } else { None };
    match (refused, accepted) {
        (Some((number, place)), None) => Judged::Refused(number, place),
        (None, Some((tables, chosen, code, text))) => match tables.show(chosen, code, text) {
            Some(shown) => Judged::Shown(shown),
            None => Judged::Strange("the oracle panicked", None),
        },
        (Some(_), Some(_)) => Judged::Strange("the oracle accepts what the checker refuses", refused),
        (None, None) => Judged::Strange("the oracle refuses what the checker accepts", None),
    }
}

impl Judged {
    pub fn wanted(&self, mode: u8, lent: Lent) -> Answer<'_> {
        match self {
            Judged::Refused(number, place) | Judged::Strange(_, Some((number, place))) => {
                Answer::refused(*number, *place)
            }
            Judged::Strange(_, None) => Answer::done(&[], 0),
            Judged::Shown(shown) => answered(mode, &shown.added, &shown.outputs[mode as usize], lent),
        }
    }

    /// whether the choice of capitals has changed letters
    pub fn capitalized(&self) -> bool {
        matches!(self, Judged::Shown(shown) if shown.capitalized > 0)
    }

    /// whether a walk behind O ang ended at a space before what it would have found
    pub fn walk_ended(&self) -> bool {
        matches!(self, Judged::Shown(shown) if shown.ended_walks > 0)
    }

    /// how many readings alternatives list, and how many were kept out, their text being listed already
    pub fn readings(&self) -> (usize, usize) {
        match self {
            Judged::Shown(Shown { readings: (asked, listed), .. }) => (*listed, asked - listed),
            _ => (0, 0),
        }
    }

    /// whether a decomposition has an edge
    pub fn decomposed(&self) -> bool {
        matches!(self, Judged::Shown(shown) if shown.added.iter().any(|edge| !edge.inner.is_empty()))
    }

    pub fn strange(&self) -> Option<String> {
        match self {
            Judged::Strange(what, _) => Some(what.to_string()),
            _ => None,
        }
    }
}
