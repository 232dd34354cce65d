//! Lists of calls: a fixed part that goes through small cases and word boundaries one by one, then calls by chance.

use crate::calls;
use crate::random::Random;
use std::collections::VecDeque;

const MAX: usize = usize::MAX;

/// Domains around the boundaries of words.
const EDGES: [usize; 15] = [
    63, 64, 65, 66, 127, 128, 129, 191, 192, 193, 511, 512, 513, 1000, 1025,
];

/// Calls with a second mask of the same domain.
const COMBINATIONS: [&str; 5] = ["union", "intersect", "subtract", "union_not", "clone_from"];

const COMPARISONS: [&str; 2] = ["superset", "equal"];

/// The number of a mask that is never made.
const MISSING: usize = 77;

/// A piece of the fixed part.
#[derive(Clone, Copy)]
enum Piece {
    /// Every call on one mask, over every member set of a small domain and every index around it.
    Alone(usize),
    /// Every call on two masks, over every pair of member sets of a small domain.
    Pairs(usize),
    /// Every call around the words of a domain, on masks of several patterns.
    Edge(usize),
    /// The same, once each.
    Short(usize),
    /// Every call on two masks of unequal domains.
    Unequal(&'static [usize]),
    /// Lines that cannot be read, or barely.
    Words,
}

pub struct List {
    random: Random,
    pieces: std::vec::IntoIter<Piece>,
    calls: usize,
    made: usize,
    /// The domains of the masks that the calls by chance are on, where they are made.
    domains: Vec<Option<usize>>,
    ready: VecDeque<String>,
}

/// The fixed part, then calls by chance until there are so many calls.
pub fn list(seed: u64, calls: usize) -> List {
    let mut pieces = vec![Piece::Words];
    pieces.extend((0..=5).map(Piece::Alone));
    pieces.extend((0..=4).map(Piece::Pairs));
    pieces.push(Piece::Unequal(&[0, 1, 2, 3, 63, 64, 65, 128, 1000]));
    pieces.extend(EDGES.map(Piece::Edge));
    List::new(seed, pieces, calls, 12)
}

/// A short list with every call and every refusal in it.
pub fn sample() -> List {
    let mut pieces = vec![
        Piece::Words,
        Piece::Alone(0),
        Piece::Alone(1),
        Piece::Unequal(&[2, 65]),
    ];
    pieces.extend([3, 64, 129].map(Piece::Short));
    List::new(1, pieces, 700, 4)
}

impl List {
    fn new(seed: u64, pieces: Vec<Piece>, calls: usize, masks: usize) -> List {
        List {
            random: Random::new(seed),
            pieces: pieces.into_iter(),
            calls,
            made: 0,
            domains: vec![None; masks],
            ready: VecDeque::new(),
        }
    }

    fn say(&mut self, line: impl Into<String>) {
        self.ready.push_back(line.into());
    }

    /// Makes a mask: `empty` or `filled`.
    fn make(&mut self, mask: usize, domain: usize, filling: &str) {
        self.say(format!("dense {mask} {domain} {filling}"));
    }

    fn write_piece(&mut self, piece: Piece) {
        match piece {
            Piece::Alone(domain) => self.write_alone(domain),
            Piece::Pairs(domain) => self.write_pairs(domain),
            Piece::Edge(domain) => self.write_edge(domain),
            Piece::Short(domain) => self.write_short(domain),
            Piece::Unequal(domains) => self.write_unequal(domains),
            Piece::Words => self.write_words(),
        }
    }

    /// Makes a mask whose members are the set bits of a number.
    fn make_members(&mut self, mask: usize, domain: usize, members: usize) {
        self.make(mask, domain, "empty");
        for index in (0..domain).filter(|index| members >> index & 1 == 1) {
            self.say(format!("insert {mask} {index}"));
        }
    }

    fn write_alone(&mut self, domain: usize) {
        for members in 0..1 << domain {
            self.make_members(0, domain, members);
            for call in ["count", "empty", "list", "picture"] {
                self.say(format!("{call} 0"));
            }
            for index in (0..=domain + 1).chain([MAX]) {
                for call in ["contains", "loose", "next"] {
                    self.say(format!("{call} 0 {index}"));
                }
                for call in ["insert", "remove"] {
                    self.make(1, domain, "filled");
                    self.say("clone_from 1 0");
                    self.say(format!("{call} 1 {index}"));
                    self.say("picture 1");
                }
            }
            for call in ["clear", "insert_all"] {
                self.say("clone_from 1 0");
                self.say(format!("{call} 1"));
                self.say("picture 1");
            }
        }
    }

    fn write_pairs(&mut self, domain: usize) {
        let all = 1 << domain;
        for members in 0..all {
            self.make_members(100 + members, domain, members);
        }
        self.make(0, domain, "empty");
        for own in 100..100 + all {
            for operand in 100..100 + all {
                self.write_combinations(0, own, operand);
                for call in COMPARISONS {
                    self.say(format!("{call} {own} {operand}"));
                }
            }
            // The mask as its own operand.
            self.write_combinations(0, own, 0);
            for call in COMPARISONS {
                self.say(format!("{call} {own} {own}"));
            }
        }
    }

    /// Each combination on a mask, which takes the members of `own` first.
    fn write_combinations(&mut self, mask: usize, own: usize, operand: usize) {
        let tables = (0..16).map(|table| format!("table {mask} {operand} {table:04b}"));
        let named = COMBINATIONS
            .iter()
            .map(|call| format!("{call} {mask} {operand}"));
        for call in named.chain(tables) {
            self.say(format!("clone_from {mask} {own}"));
            self.say(call);
            self.say(format!("picture {mask}"));
        }
    }

    fn write_edge(&mut self, domain: usize) {
        self.make(0, domain, "empty");
        self.make(1, domain, "filled");
        for (mask, step) in [(2, 2), (3, 3), (4, 63)] {
            self.make(mask, domain, "empty");
            for index in (0..domain).step_by(step) {
                self.say(format!("insert {mask} {index}"));
            }
        }
        self.make(5, domain, "empty");
        for index in 0..domain {
            if self.random.chance(50) {
                self.say(format!("insert 5 {index}"));
            }
        }
        self.make(6, domain, "filled");
        let around = (0..=domain / 64 + 1)
            .flat_map(|word| [64 * word, 64 * word + 1, 64 * word + 2, 64 * word + 63]);
        let indices: Vec<usize> = around
            .chain([domain - 1, domain, domain + 1, 1 << 32, MAX - 1, MAX])
            .collect();
        for mask in 0..6 {
            for call in ["count", "empty", "list", "picture"] {
                self.say(format!("{call} {mask}"));
            }
            for index in &indices {
                for call in ["contains", "loose", "next"] {
                    self.say(format!("{call} {mask} {index}"));
                }
            }
            self.say(format!("clone_from 6 {mask}"));
            for index in &indices {
                for call in ["insert", "insert", "remove", "remove"] {
                    self.say(format!("{call} 6 {index}"));
                }
                self.say("picture 6");
                self.say("count 6");
            }
            for call in ["insert_all", "clear", "insert_all"] {
                self.say(format!("{call} 6"));
                self.say("picture 6");
            }
        }
        for index in &indices {
            self.say("clear 6");
            self.say(format!("insert 6 {index}"));
            for call in ["empty 6", "count 6", "next 6 0", "list 6"] {
                self.say(call);
            }
        }
        for own in 0..6 {
            for operand in 0..6 {
                self.write_combinations(6, own, operand);
                for call in COMPARISONS {
                    self.say(format!("{call} {own} {operand}"));
                }
            }
            self.write_combinations(6, own, 6);
        }
    }

    fn write_short(&mut self, domain: usize) {
        let indices = [0, 1, 63, 64, 128, domain - 1, domain];
        for (mask, filling) in [(0, "filled"), (1, "empty"), (2, "empty")] {
            self.make(mask, domain, filling);
        }
        for index in indices {
            self.say(format!("insert 1 {index}"));
            self.say(format!("remove 0 {index}"));
            for call in ["contains", "loose", "next"] {
                self.say(format!("{call} 1 {index}"));
            }
        }
        for table in 0..16 {
            self.say(format!("table 2 {} {table:04b}", table % 2));
            self.say("picture 2");
        }
        for call in COMBINATIONS.iter().chain(&COMPARISONS) {
            self.say(format!("{call} 2 1"));
            self.say(format!("{call} 2 0"));
            self.say(format!("{call} 2 2"));
        }
        for call in [
            "list",
            "insert_all",
            "list",
            "count",
            "clear",
            "list",
            "count",
            "empty",
        ] {
            self.say(format!("{call} 2"));
        }
    }

    fn write_unequal(&mut self, domains: &[usize]) {
        for (place, domain) in domains.iter().enumerate() {
            self.make(place, *domain, "filled");
        }
        for own in 0..domains.len() {
            for other in (0..domains.len()).filter(|other| *other != own) {
                for call in COMBINATIONS.iter().chain(&COMPARISONS) {
                    self.say(format!("{call} {own} {other}"));
                }
                self.say(format!("table {own} {other} 0110"));
                self.say(format!("table {own} {other} 1010"));
                self.say(format!("picture {own}"));
            }
        }
    }

    fn write_words(&mut self) {
        self.say("count 0");
        self.say("# Numbers, names and spaces that are read, and those that are not.");
        self.say("dense 0 70 empty");
        self.say("dense 1 70 filled");
        for line in UNREADABLE.iter().chain(&READABLE) {
            self.say(*line);
        }
        self.say("");
        self.say(" \t ");
        self.say("  # insert 0 1");
        self.say("picture 0");
        self.say("picture 1");
    }

    /// A call by chance, or a few.
    fn write_chance(&mut self) {
        let mask = self.random.below(self.domains.len());
        let Some(domain) = self.domains[mask] else {
            return self.write_making(mask);
        };
        let index = self.index(domain);
        let other = self.other(domain);
        match self.random.below(1000) {
            0..15 => self.write_making(mask),
            15..20 => {
                let line = self.random.pick(&UNREADABLE);
                self.say(line);
            }
            20..24 => self.say(format!("clear {mask}")),
            24..30 => self.say(format!("insert_all {mask}")),
            30..40 => self.say(format!("list {mask}")),
            40..80 => self.say(format!("picture {mask}")),
            80..280 => self.say(format!("insert {mask} {index}")),
            280..420 => self.say(format!("remove {mask} {index}")),
            420..520 => self.say(format!("contains {mask} {index}")),
            520..570 => self.say(format!("loose {mask} {index}")),
            570..670 => self.say(format!("next {mask} {index}")),
            670..720 => self.say(format!("count {mask}")),
            720..740 => self.say(format!("empty {mask}")),
            740..800 => {
                let call = self.random.pick(&COMPARISONS);
                self.say(format!("{call} {mask} {other}"));
            }
            800..900 => {
                let call = self.random.pick(&COMBINATIONS);
                self.say(format!("{call} {mask} {other}"));
            }
            _ => {
                let table = self.random.below(16);
                self.say(format!("table {mask} {other} {table:04b}"));
            }
        }
    }

    /// Makes a mask, mostly with a few indices put in or taken out.
    fn write_making(&mut self, mask: usize) {
        let domain = self.domain();
        self.domains[mask] = Some(domain);
        let (filling, call) = self
            .random
            .pick(&[("empty", "insert"), ("filled", "remove")]);
        self.make(mask, domain, filling);
        for _ in 0..self.random.below(40).min(domain) {
            let index = self.random.below(domain);
            self.say(format!("{call} {mask} {index}"));
        }
    }

    /// A domain, mostly one that another mask has.
    fn domain(&mut self) -> usize {
        if self.random.chance(60) {
            if let Some(domain) = self.random.pick(&self.domains) {
                return domain;
            }
        }
        match self.random.below(20) {
            0..4 => self.random.below(6),
            4..13 => self.random.pick(&EDGES),
            13..19 => self.random.below(400),
            _ => self.random.below(4000),
        }
    }

    /// An index, mostly below the domain.
    fn index(&mut self, domain: usize) -> usize {
        match self.random.below(100) {
            0..60 if domain > 0 => self.random.below(domain),
            60..80 => 64 * self.random.below(domain / 64 + 2) + self.random.pick(&[0, 1, 62, 63]),
            80..94 => (domain + self.random.below(4)).saturating_sub(2),
            94..96 => self.random.bits() as usize,
            96..98 => 1 << self.random.below(64),
            _ => self.random.pick(&[0, MAX, MAX - 1]),
        }
    }

    /// The number of a mask, mostly one of the same domain.
    fn other(&mut self, domain: usize) -> usize {
        if self.random.chance(90) {
            let all = 0..self.domains.len();
            let alike: Vec<usize> = all
                .filter(|mask| self.domains[*mask] == Some(domain))
                .collect();
            return self.random.pick(&alike);
        }
        if self.random.chance(5) {
            MISSING
        } else {
            self.random.below(self.domains.len())
        }
    }
}

impl Iterator for List {
    type Item = String;

    fn next(&mut self) -> Option<String> {
        loop {
            if let Some(line) = self.ready.pop_front() {
                if !calls::is_skipped(&line) {
                    self.made += 1;
                }
                return Some(line);
            }
            if let Some(piece) = self.pieces.next() {
                self.write_piece(piece);
            } else if self.made < self.calls {
                self.write_chance();
            } else {
                return None;
            }
        }
    }
}

/// Lines that cannot be read, or name a mask that is not there.
const UNREADABLE: [&str; 43] = [
    "insert 0",
    "insert",
    "insert 0 1 2",
    "insert x 1",
    "insert 0 x",
    "insert 0 -1",
    "insert 0 1.5",
    "insert 0 0x1",
    "insert 0 1_0",
    "insert 0 \u{664}",
    "insert 0 18446744073709551616",
    "insert 18446744073709551616 0",
    "insert 77 1",
    "Insert 0 1",
    "inserts 0 1",
    "insert_all 0 1",
    "remove 77 1",
    "clear 0 1",
    "clear 77",
    "count",
    "count 77",
    "list 0 0",
    "list 77",
    "picture 18446744073709551615",
    "empty 77",
    "next 77 0",
    "next 0",
    "contains 77 0",
    "loose 77 1",
    "loose 0",
    "dense 0 5",
    "dense 0 5 half",
    "dense 0 5 empty now",
    "dense 0 4294967297 empty",
    "dense 0 18446744073709551615 filled",
    "sparse 0 5 empty",
    "union 0 77",
    "union 77 0",
    "equal 77 77",
    "superset 0 77",
    "table 0 1 011",
    "table 0 1 01101",
    "table 0 1 0112",
];

/// Lines that are read, though not as they would be written.
const READABLE: [&str; 8] = [
    "  insert 0 1",
    "insert\t0\t2  ",
    "insert 0 +3",
    "insert 0 004",
    "contains 0\u{3000}4",
    "next 00 5",
    "clone_from 0 1",
    "insert 0 18446744073709551615",
];
