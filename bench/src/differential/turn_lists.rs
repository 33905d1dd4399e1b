//! Lists of rare turns that calls of some kinds have to take, and how often each was taken.

use crate::call::Kind;

/// Whether what was seen of a call is such a turn.
pub type Turn<Seen> = fn(&Seen) -> bool;

/// What each of some kinds of calls has to do.
pub struct List<Seen: 'static> {
    pub kinds: &'static [Kind],
    pub turns: &'static [(&'static str, Turn<Seen>)],
}

/// How often each turn of some lists was taken.
pub struct Counts<Seen: 'static> {
    lists: &'static [&'static [List<Seen>]],
    counts: Vec<u64>,
}

impl<Seen> Clone for Counts<Seen> {
    fn clone(&self) -> Self {
        Counts {
            lists: self.lists,
            counts: self.counts.clone(),
        }
    }
}

/// Each turn, with the kind of call that has to take it.
fn all<Seen>(lists: &'static [&'static [List<Seen>]]) -> impl Iterator<Item = (Kind, &'static str, Turn<Seen>)> {
    let of_list = |list: &'static List<Seen>| {
        let of_kind = |&kind| list.turns.iter().map(move |&(what, turn)| (kind, what, turn));
        list.kinds.iter().flat_map(of_kind)
    };
    lists.iter().copied().flatten().flat_map(of_list)
}

impl<Seen> Counts<Seen> {
    pub fn new(lists: &'static [&'static [List<Seen>]]) -> Self {
        Counts {
            lists,
            counts: vec![0; all(lists).count()],
        }
    }

    /// Counts those turns of a call of some kind that it has taken.
    pub fn count(&mut self, kind: Kind, seen: &Seen) {
        for (count, (its_kind, _, turn)) in self.counts.iter_mut().zip(all(self.lists)) {
            *count += u64::from(kind == its_kind && turn(seen));
        }
    }

    pub fn iter(&self) -> impl Iterator<Item = &u64> {
        self.counts.iter()
    }

    pub fn iter_mut(&mut self) -> impl Iterator<Item = &mut u64> {
        self.counts.iter_mut()
    }

    /// What each turn is, and its count.
    pub fn named(&self) -> impl Iterator<Item = (String, u64)> + '_ {
        let names = all(self.lists).map(|(kind, what, _)| format!("{}: {what}", kind.name()));
        names.zip(self.counts.iter().copied())
    }
}
