//! The published `Dicts` facade over the four lent tables.

use std::cell::Cell;
use std::collections::{HashMap, HashSet};
use std::sync::LazyLock;

#[derive(Debug, Clone, Copy, PartialEq, Eq)]
pub enum AbugidaRuleType {
    A,
    AO,
}

/// The published `RomRule`, un-archived; the methods are the published ones.
#[derive(Debug, Clone)]
pub struct Rule {
    pub t: Option<String>,
    pub lcodes: Vec<String>,
    pub use_only_at_start_of_word: bool,
    pub dont_use_at_start_of_word: bool,
    pub use_only_at_end_of_word: bool,
    pub dont_use_at_end_of_word: bool,
    pub use_only_for_whole_word: bool,
    pub n_restr: u32,
    pub t_alts: Vec<String>,
    pub t_at_end_of_syllable: Option<String>,
}

impl Rule {
    pub fn target(&self) -> Option<&str> {
        self.t.as_ref().map(|s| s.as_str())
    }
    pub fn alt_targets(&self) -> impl Iterator<Item = &str> {
        self.t_alts.iter().map(|s| s.as_str())
    }
    pub fn end_of_syllable_target(&self) -> Option<&str> {
        self.t_at_end_of_syllable.as_ref().map(|s| s.as_str())
    }
    pub fn restriction_count(&self) -> u32 {
        self.n_restr
    }
    pub fn matches_lcode(&self, lcode: Option<&str>) -> bool {
        self.lcodes.is_empty() || lcode.is_some_and(|lc| self.lcodes.iter().any(|c| c == lc))
    }
}

pub struct NumProp {
    pub is_large_power: bool,
}
impl NumProp {
    pub fn rom(&self) -> Option<&str> {
        None
    }
    pub fn value(&self) -> Option<f64> {
        None
    }
    pub fn fraction_parts(&self) -> Option<(i64, i64)> {
        None
    }
    pub fn num_type(&self) -> &str {
        ""
    }
    pub fn base(&self) -> Option<i64> {
        None
    }
    pub fn mult(&self) -> Option<f64> {
        None
    }
    pub fn script(&self) -> Option<&str> {
        None
    }
}

static SCRIPT_NAMES: LazyLock<Vec<String>> = LazyLock::new(|| {
    (0..128)
        .map(|i| match i {
            0 => String::new(),
            1 => "Thai".into(),
            2 => "Coptic".into(),
            3 => "Hiragana".into(),
            4 => "Katakana".into(),
            5 => "Devanagari".into(),
            n => format!("Script-{n}"),
        })
        .collect()
});

#[derive(Default)]
pub struct Data {
    pub rules: HashMap<String, Vec<Rule>>,
    pub prefixes: HashSet<String>,
    /// scalar value, category, script, flags; rising
    pub classes: Vec<(u32, u8, u8, u8)>,
    pub vowels: HashMap<u8, (AbugidaRuleType, String)>,
    /// tag and characters
    pub decompositions: HashMap<char, (u8, String)>,
}

/// The tags of decompositions by their numbers. 5 stands for all that the Rust has no name for.
const TAGS: [&str; 6] = ["", "<super>", "<sub>", "<noBreak>", "<compat>", "<circle>"];

thread_local! {
    static CURRENT: Cell<Option<&'static Data>> = const { Cell::new(None) };
}

/// Category, script and flags of a character.
pub fn class_of(c: char) -> (u8, u8, u8) {
    let d = CURRENT.get().expect("tables set");
    match d.classes.binary_search_by_key(&(c as u32), |r| r.0) {
        Ok(i) => (d.classes[i].1, d.classes[i].2, d.classes[i].3),
        Err(_) if c.is_ascii_alphabetic() => (1, 0, 0),
        Err(_) => (0, 0, 0),
    }
}
fn flag(c: char, bit: u8) -> bool {
    class_of(c).2 >> bit & 1 == 1
}
pub fn is_lower(c: char) -> bool {
    flag(c, 7)
}
pub fn is_number(c: char) -> bool {
    class_of(c).0 == 4
}

#[derive(Clone, Copy)]
pub struct Dicts {
    d: &'static Data,
}

impl Dicts {
    /// # Safety
    /// `data` must outlive every use of the handle and of what it returned.
    pub unsafe fn install(data: &Data) -> Self {
        let d: &'static Data = unsafe { &*(data as *const Data) };
        CURRENT.set(Some(d));
        Self { d }
    }
    pub fn uninstall() {
        CURRENT.set(None);
    }
    /// the tables that are installed
    pub fn installed() -> Self {
        Self { d: CURRENT.get().expect("tables set") }
    }
    pub fn rom_rules(&self, s: &str) -> &'static [Rule] {
        self.d.rules.get(s).map(|v| v.as_slice()).unwrap_or(&[])
    }
    pub fn is_s_prefix(&self, s: &str) -> bool {
        self.d.prefixes.contains(s)
    }
    pub fn chr_script_name(&self, c: char) -> &'static str {
        SCRIPT_NAMES[class_of(c).1 as usize].as_str()
    }
    pub fn is_letter(&self, c: char) -> bool {
        class_of(c).0 == 1
    }
    pub fn is_subjoined_letter(&self, c: char) -> bool {
        flag(c, 2)
    }
    pub fn is_nukta(&self, _c: char) -> bool {
        false
    }
    pub fn is_vocalic(&self, c: char) -> bool {
        flag(c, 4)
    }
    pub fn is_vowel_sign(&self, c: char) -> bool {
        flag(c, 0)
    }
    pub fn is_medial_consonant_sign(&self, c: char) -> bool {
        flag(c, 1)
    }
    pub fn is_virama(&self, c: char) -> bool {
        flag(c, 3)
    }
    pub fn tone_mark(&self, c: char) -> &'static str {
        if flag(c, 5) { "tone" } else { "" }
    }
    pub fn syllable_info(&self, c: char) -> &'static str {
        if flag(c, 6) {
            "written-pre-consonant-spoken-post-consonant"
        } else {
            ""
        }
    }
    pub fn abugida_for_char(&self, c: char) -> Option<(AbugidaRuleType, &'static str)> {
        let (t, v) = self.d.vowels.get(&class_of(c).1)?;
        Some((*t, v.as_str()))
    }
    pub fn num_prop(&self, _s: &str) -> Option<&'static NumProp> {
        None
    }
    pub fn decomposition(&self, c: char) -> Option<(&'static str, &'static str)> {
        let (tag, characters) = self.d.decompositions.get(&c)?;
        Some((TAGS[*tag as usize], characters.as_str()))
    }
    pub fn hangul_romanization(&self, _c: char) -> Option<String> {
        None
    }
}
