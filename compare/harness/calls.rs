//! Reading a line of a list of calls.

/// No mask is made for a domain past this one.
const LARGEST_DOMAIN: usize = 1 << 32;

#[derive(Clone, Copy)]
pub enum Kind {
    Dense,
}

/// The result for (own bit, operand's bit), in the order (0,0), (0,1), (1,0), (1,1).
pub type Table = [bool; 4];

/// A change of one mask.
#[derive(Clone, Copy)]
pub enum Change {
    Insert(usize),
    Remove(usize),
    Clear,
    InsertAll,
}

/// A change of one mask by another.
#[derive(Clone, Copy)]
pub enum Combination {
    Union,
    Intersect,
    Subtract,
    UnionNot,
    CloneFrom,
    Table(Table),
}

/// A call on a mask. A second mask is named by its number.
#[derive(Clone, Copy)]
pub enum Call {
    Make {
        kind: Kind,
        domain: usize,
        full: bool,
    },
    Change(Change),
    Combine(Combination, usize),
    Contains(usize),
    Loose(usize),
    Superset(usize),
    Equal(usize),
    Empty,
    Count,
    Next(usize),
    List,
    Picture,
}

impl Combination {
    pub fn table(self) -> Table {
        match self {
            Combination::Union => [false, true, true, true],
            Combination::Intersect => [false, false, false, true],
            Combination::Subtract => [false, false, true, false],
            Combination::UnionNot => [true, false, true, true],
            Combination::CloneFrom => [false, true, false, true],
            Combination::Table(table) => table,
        }
    }
}

/// Whether a line is blank or a comment, so that it gets no answer.
pub fn is_skipped(line: &str) -> bool {
    let line = line.trim();
    line.is_empty() || line.starts_with('#')
}

/// The mask's number and the call, if the line can be read.
pub fn read(line: &str) -> Option<(usize, Call)> {
    let words: Vec<&str> = line.split_whitespace().collect();
    let call = match words[..] {
        ["clear", _] => Call::Change(Change::Clear),
        ["insert_all", _] => Call::Change(Change::InsertAll),
        ["empty", _] => Call::Empty,
        ["count", _] => Call::Count,
        ["list", _] => Call::List,
        ["picture", _] => Call::Picture,
        ["insert", _, index] => Call::Change(Change::Insert(number(index)?)),
        ["remove", _, index] => Call::Change(Change::Remove(number(index)?)),
        ["contains", _, index] => Call::Contains(number(index)?),
        ["loose", _, index] => Call::Loose(number(index)?),
        ["next", _, index] => Call::Next(number(index)?),
        ["union", _, other] => Call::Combine(Combination::Union, number(other)?),
        ["intersect", _, other] => Call::Combine(Combination::Intersect, number(other)?),
        ["subtract", _, other] => Call::Combine(Combination::Subtract, number(other)?),
        ["union_not", _, other] => Call::Combine(Combination::UnionNot, number(other)?),
        ["clone_from", _, other] => Call::Combine(Combination::CloneFrom, number(other)?),
        ["superset", _, other] => Call::Superset(number(other)?),
        ["equal", _, other] => Call::Equal(number(other)?),
        ["table", _, other, bits] => {
            Call::Combine(Combination::Table(table(bits)?), number(other)?)
        }
        ["dense", _, domain, filling] => make(Kind::Dense, number(domain)?, filling)?,
        _ => return None,
    };
    Some((number(words[1])?, call))
}

fn number(word: &str) -> Option<usize> {
    word.parse().ok()
}

fn make(kind: Kind, domain: usize, filling: &str) -> Option<Call> {
    let full = match filling {
        "empty" => false,
        "filled" => true,
        _ => return None,
    };
    (domain <= LARGEST_DOMAIN).then_some(Call::Make { kind, domain, full })
}

fn table(bits: &str) -> Option<Table> {
    let bits: Option<Vec<bool>> = bits.bytes().map(bit).collect();
    bits?.try_into().ok()
}

fn bit(byte: u8) -> Option<bool> {
    match byte {
        b'0' => Some(false),
        b'1' => Some(true),
        _ => None,
    }
}
