//! What the published files import but the oracle must supply itself.

use crate::edge::Edge;
use std::cell::RefCell;

/// An edge of a lattice, as far as the room that it takes is concerned.
#[derive(Clone)]
pub struct Added {
    pub start: usize,
    /// of its text, in bytes
    pub length: usize,
    /// the text lengths of the lattice that a decomposition's edge comes of, in adding order; never empty there, empty for all others
    pub inner: Vec<usize>,
}

thread_local! {
    /// every edge, in adding order
    static ADDED: RefCell<Vec<Added>> = const { RefCell::new(Vec::new()) };
    /// what the next decomposition's edge comes of
    static INNER: RefCell<Vec<usize>> = const { RefCell::new(Vec::new()) };
}

pub fn forget_added() {
    ADDED.take();
    INNER.take();
}

pub fn added() -> Vec<Added> {
    ADDED.with_borrow(|a| a.clone())
}

/// Runs a lattice while another is being filled: its edges are no edges of the other, and are kept for the one that comes of them.
pub fn within<T>(run: impl FnOnce() -> T) -> T {
    let outer = ADDED.take();
    let made = run();
    let inner = ADDED.replace(outer);
    INNER.set(inner.iter().map(|edge| edge.length).collect());
    made
}

/// A set that iterates in adding order and never holds two equal members
/// (stands for `HashSet<Edge>`). Every member that is new is noted in `ADDED`.
#[derive(Clone, Debug, Default)]
pub struct OrderedSet {
    members: Vec<Edge>,
}
impl OrderedSet {
    pub fn insert(&mut self, edge: Edge) -> bool {
        if self.members.contains(&edge) {
            return false;
        }
        let inner = if edge.r#type() == "rom decomp" { INNER.take() } else { Vec::new() };
        ADDED.with_borrow_mut(|a| a.push(Added { start: edge.start(), length: edge.txt().len(), inner }));
        self.members.push(edge);
        true
    }
    pub fn is_empty(&self) -> bool {
        self.members.is_empty()
    }
    pub fn iter(&self) -> std::slice::Iter<'_, Edge> {
        self.members.iter()
    }
}
impl<'a> IntoIterator for &'a OrderedSet {
    type Item = &'a Edge;
    type IntoIter = std::slice::Iter<'a, Edge>;
    fn into_iter(self) -> Self::IntoIter {
        self.members.iter()
    }
}

/// What a call chooses, and how often each choice has made a difference.
pub mod choice {
    use crate::Choices;
    use std::cell::Cell;

    thread_local! {
        static MADE: Cell<Choices> = const { Cell::new(Choices::NONE) };
        static CHANGES: Cell<usize> = const { Cell::new(0) };
        static ENDED_WALKS: Cell<usize> = const { Cell::new(0) };
        static READINGS: Cell<(usize, usize)> = const { Cell::new((0, 0)) };
    }

    pub fn set(choices: Choices) {
        MADE.set(choices);
        CHANGES.set(0);
        ENDED_WALKS.set(0);
        READINGS.set((0, 0));
    }
    pub fn made() -> Choices {
        MADE.get()
    }
    pub fn note_change() {
        CHANGES.set(CHANGES.get() + 1);
    }
    pub fn changes() -> usize {
        CHANGES.get()
    }
    pub fn note_ended_walk() {
        ENDED_WALKS.set(ENDED_WALKS.get() + 1);
    }
    pub fn ended_walks() -> usize {
        ENDED_WALKS.get()
    }
    pub fn note_asked() {
        let (asked, listed) = READINGS.get();
        READINGS.set((asked + 1, listed));
    }
    pub fn note_listed() {
        let (asked, listed) = READINGS.get();
        READINGS.set((asked, listed + 1));
    }
    /// how many "rom-alt2" were asked for, and how many of these are listed
    pub fn readings() -> (usize, usize) {
        READINGS.get()
    }
}

/// Counts of the blocks entered; coverage.py writes the calls of `enter`, a plain build has none.
pub mod blocks {
    use std::collections::HashMap;
    use std::sync::Mutex;

    static ENTERED: Mutex<Option<HashMap<u32, u64>>> = Mutex::new(None);

    pub fn enter(block: u32) {
        *ENTERED.lock().unwrap().get_or_insert_default().entry(block).or_default() += 1;
    }
    /// the blocks entered and how often, on standard error
    pub fn report() {
        for (block, n) in ENTERED.lock().unwrap().iter().flatten() {
            eprintln!("{block} {n}");
        }
    }
}

/// Stands for the two regexes `[\p{L}\p{M}]` and `[\p{L}\p{M}]$`, with \p{L}
/// and \p{M} taken from the class table.
pub struct LOrM {
    pub at_end: bool,
}
impl LOrM {
    pub fn is_match(&self, s: &str) -> bool {
        let lm = |c: char| (1..=3).contains(&crate::dicts::class_of(c).0);
        if self.at_end {
            s.chars().last().is_some_and(lm)
        } else {
            s.chars().any(lm)
        }
    }
}

pub mod unicode_properties {
    #[derive(Debug, Clone, Copy, PartialEq, Eq)]
    pub enum GeneralCategory {
        OtherSymbol,
        OtherLetter,
        NonspacingMark,
        SpacingMark,
        DecimalNumber,
        Format,
        PrivateUse,
        SpaceSeparator,
    }
    #[derive(Debug, Clone, Copy, PartialEq, Eq)]
    pub enum GeneralCategoryGroup {
        Letter,
        Mark,
        Number,
        Separator,
        Other,
    }
    pub trait UnicodeGeneralCategory {
        fn general_category(self) -> GeneralCategory;
        fn general_category_group(self) -> GeneralCategoryGroup;
    }
    impl UnicodeGeneralCategory for char {
        fn general_category(self) -> GeneralCategory {
            match crate::dicts::class_of(self).0 {
                1 => GeneralCategory::OtherLetter,
                2 => GeneralCategory::NonspacingMark,
                3 => GeneralCategory::SpacingMark,
                4 => GeneralCategory::DecimalNumber,
                5 => GeneralCategory::Format,
                6 => GeneralCategory::PrivateUse,
                7 => GeneralCategory::SpaceSeparator,
                _ => GeneralCategory::OtherSymbol,
            }
        }
        fn general_category_group(self) -> GeneralCategoryGroup {
            match crate::dicts::class_of(self).0 {
                1 => GeneralCategoryGroup::Letter,
                2 | 3 => GeneralCategoryGroup::Mark,
                4 => GeneralCategoryGroup::Number,
                7 => GeneralCategoryGroup::Separator,
                _ => GeneralCategoryGroup::Other,
            }
        }
    }
}

pub mod num_rational {
    #[derive(Debug, Clone, Copy, PartialEq, PartialOrd)]
    pub struct Ratio<T>(T, T);
    impl<T> Ratio<T> {
        pub fn new(n: T, d: T) -> Self {
            Ratio(n, d)
        }
        pub fn numer(&self) -> &T {
            &self.0
        }
        pub fn denom(&self) -> &T {
            &self.1
        }
    }
}
