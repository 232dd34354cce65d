//! Answers calls with the Rust crate. Where the crate contradicts itself the answer says so, and no right answer is like it.

use crate::calls::{self, Call, Change, Combination};
use crate::sets::{AnySet, Said};
use std::collections::BTreeMap;
use std::panic::{AssertUnwindSafe, catch_unwind};

pub struct Oracle {
    sets: BTreeMap<usize, AnySet>,
}

impl Oracle {
    pub fn new() -> Oracle {
        Oracle {
            sets: BTreeMap::new(),
        }
    }

    /// The answer to a line, or nothing where the line is skipped.
    pub fn answer(&mut self, line: &str) -> Option<String> {
        if calls::is_skipped(line) {
            return None;
        }
        let told = calls::read(line).and_then(|(number, call)| self.tell(number, call));
        Some(told.unwrap_or_else(|| "unreadable".to_string()))
    }

    /// The answer to a call, or nothing where a mask is missing.
    fn tell(&mut self, number: usize, call: Call) -> Option<String> {
        Some(match call {
            Call::Make { kind, domain, full } => {
                self.sets.insert(number, AnySet::new(kind, domain, full));
                "made".to_string()
            }
            Call::Change(change) => change_set(self.sets.get_mut(&number)?, change),
            Call::Combine(combination, other) => {
                let other = self.sets.get(&other)?.clone();
                combine_sets(self.sets.get_mut(&number)?, combination, &other)
            }
            Call::Contains(index) => contains(self.sets.get(&number)?, index),
            Call::Loose(index) => self.sets.get(&number)?.contains_loose(index).to_string(),
            Call::Superset(other) => superset(self.sets.get(&number)?, self.sets.get(&other)?),
            Call::Equal(other) => (self.sets.get(&number)? == self.sets.get(&other)?).to_string(),
            Call::Empty => is_empty(self.sets.get(&number)?),
            Call::Count => count(self.sets.get(&number)?),
            Call::Next(from) => next(self.sets.get(&number)?, from),
            Call::List => spaced(&self.sets.get(&number)?.members()),
            Call::Picture => spaced(&self.sets.get(&number)?.picture()),
        })
    }
}

fn change_set(set: &mut AnySet, change: Change) -> String {
    let refusal = match change {
        Change::Insert(index) | Change::Remove(index) => index_refusal(set, index),
        Change::Clear | Change::InsertAll => None,
    };
    let before = set.clone();
    match catch_unwind(AssertUnwindSafe(|| set.change(change))) {
        Ok(said) => report(&before, set, said),
        Err(_) => panicked(&before, set, refusal),
    }
}

fn combine_sets(set: &mut AnySet, combination: Combination, other: &AnySet) -> String {
    let refusal = domain_refusal(set, other);
    let before = set.clone();
    if let Some(refusal) = refusal {
        // The crate's clone_from would take the other domain over, and a table is no call of the crate.
        if matches!(combination, Combination::CloneFrom | Combination::Table(_)) {
            return refusal;
        }
        return match catch_unwind(AssertUnwindSafe(|| set.combine(combination, other))) {
            Ok(_) => "the crate combines unequal domains".to_string(),
            Err(_) => panicked(&before, set, Some(refusal)),
        };
    }
    let mut model = set.clone();
    model.apply(combination.table(), other);
    match catch_unwind(AssertUnwindSafe(|| set.combine(combination, other))) {
        Ok(Said::Lacking) => {
            *set = model;
            report(&before, set, Said::Nothing)
        }
        Ok(said) if *set == model => report(&before, set, said),
        Ok(_) => "the crate's members are not the table's".to_string(),
        Err(_) => panicked(&before, set, None),
    }
}

/// How many indices entered and how many left, by the members before and after.
fn report(before: &AnySet, after: &AnySet, said: Said) -> String {
    let (old, new) = (before.members(), after.members());
    let entered = gained(&old, &new);
    let left = gained(&new, &old);
    match said {
        Said::Flag(flag) if flag != (entered > 0 || left > 0) => {
            format!("the crate's flag is {flag} where {entered} entered and {left} left")
        }
        _ => format!("{entered} {left}"),
    }
}

/// How many members of a rising list are not in the other.
fn gained(old: &[usize], new: &[usize]) -> usize {
    let mut old = old.iter().peekable();
    let mut gained = 0;
    for member in new {
        while old.next_if(|o| *o < member).is_some() {}
        if old.next_if(|o| *o == member).is_none() {
            gained += 1;
        }
    }
    gained
}

/// The refusal that a panic stands for, where there is a cause for one and nothing has changed.
fn panicked(before: &AnySet, after: &AnySet, refusal: Option<String>) -> String {
    if before != after {
        return "the crate panicked after a change".to_string();
    }
    refusal.unwrap_or_else(|| "the crate panicked".to_string())
}

fn index_refusal(set: &AnySet, index: usize) -> Option<String> {
    (index >= set.domain()).then(|| format!("refused 1 {index}"))
}

fn domain_refusal(set: &AnySet, other: &AnySet) -> Option<String> {
    let (own, others) = (set.domain(), other.domain());
    (own != others).then(|| format!("refused 2 {own} {others}"))
}

fn contains(set: &AnySet, index: usize) -> String {
    match catch_unwind(AssertUnwindSafe(|| set.contains(index))) {
        Ok(flag) => flag.to_string(),
        Err(_) => panicked(set, set, index_refusal(set, index)),
    }
}

fn superset(set: &AnySet, other: &AnySet) -> String {
    match catch_unwind(AssertUnwindSafe(|| set.superset(other))) {
        Ok(flag) => flag.to_string(),
        Err(_) => panicked(set, set, domain_refusal(set, other)),
    }
}

fn is_empty(set: &AnySet) -> String {
    let flag = set.is_empty();
    if flag != set.members().is_empty() {
        return format!("the crate's is_empty is {flag} against its members");
    }
    flag.to_string()
}

fn count(set: &AnySet) -> String {
    let count = set.count();
    if count != set.members().len() {
        return format!("the crate's count is {count} against its members");
    }
    count.to_string()
}

/// The lowest member at or after a number, held to the crate's own search where that takes the number.
fn next(set: &AnySet, from: usize) -> String {
    let found = set.members().into_iter().find(|member| *member >= from);
    if set
        .first_at_or_after(from)
        .is_some_and(|first| first != found)
    {
        return format!("the crate's search does not find {found:?}");
    }
    found.map_or("none".to_string(), |member| member.to_string())
}

fn spaced<T: ToString>(numbers: &[T]) -> String {
    if numbers.is_empty() {
        return "none".to_string();
    }
    numbers
        .iter()
        .map(T::to_string)
        .collect::<Vec<_>>()
        .join(" ")
}
