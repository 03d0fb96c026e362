//! Finite languages as explicit automata.
//!
//! A language is put together from byte sets and lists of words. Equal remainders are kept once,
//! so even the grammar of all messages stays small. Apart from `NONE` no state is kept from which
//! no word can be finished: a walk that is still alive has therefore read the beginning of a word.

use std::collections::{BTreeMap, HashMap};

pub type State = usize;

/// The language without a word.
pub const NONE: State = 0;
/// The language whose only word is empty.
pub const EMPTY: State = 1;

#[derive(Clone, Default, PartialEq, Eq, Hash)]
struct Node {
    accepts: bool,
    next: BTreeMap<u8, State>,
}

pub struct Builder {
    nodes: Vec<Node>,
    known: HashMap<Node, State>,
    /// Unions already made: shared remainders would be joined once per path to them otherwise.
    joined: HashMap<(State, State), State>,
}

impl Default for Builder {
    fn default() -> Self {
        let mut builder =
            Builder { nodes: Vec::new(), known: HashMap::new(), joined: HashMap::new() };
        builder.keep(Node::default());
        builder.keep(Node { accepts: true, ..Node::default() });
        builder
    }
}

impl Builder {
    fn keep(&mut self, node: Node) -> State {
        if let Some(&state) = self.known.get(&node) {
            return state;
        }
        self.nodes.push(node.clone());
        self.known.insert(node, self.nodes.len() - 1);
        self.nodes.len() - 1
    }

    /// A byte of the list, then a word of the language beside it. Ways to `NONE` are left out.
    pub fn branch(&mut self, ways: impl IntoIterator<Item = (u8, State)>) -> State {
        let next = ways.into_iter().filter(|&(_, to)| to != NONE).collect();
        self.keep(Node { accepts: false, next })
    }

    /// `count` bytes, each out of the set.
    pub fn run(&mut self, set: &[u8], count: usize) -> State {
        (0..count).fold(EMPTY, |rest, _| self.branch(set.iter().map(|&byte| (byte, rest))))
    }

    /// All the listed words.
    pub fn words<W: AsRef<[u8]>>(&mut self, list: impl IntoIterator<Item = W>) -> State {
        list.into_iter().fold(NONE, |all, word| {
            let bytes = word.as_ref().iter().rev();
            let chain = bytes.fold(EMPTY, |rest, &byte| self.branch([(byte, rest)]));
            self.either(all, chain)
        })
    }

    /// The words of both languages.
    pub fn either(&mut self, a: State, b: State) -> State {
        if a == b || b == NONE {
            return a;
        }
        if let Some(&state) = self.joined.get(&(a, b)) {
            return state;
        }
        let mut node = self.nodes[a].clone();
        let other = self.nodes[b].clone();
        node.accepts |= other.accepts;
        for (byte, to) in other.next {
            let own = node.next.get(&byte).copied().unwrap_or(NONE);
            let both = self.either(own, to);
            node.next.insert(byte, both);
        }
        let state = self.keep(node);
        self.joined.insert((a, b), state);
        state
    }

    /// A word of the first language, then one of the second.
    pub fn then(&mut self, first: State, second: State) -> State {
        if second == EMPTY {
            return first;
        }
        self.append(first, second, &mut HashMap::new())
    }

    /// `done` holds the remainders already rewritten: they are shared, so each is visited once.
    fn append(&mut self, at: State, tail: State, done: &mut HashMap<State, State>) -> State {
        if let Some(&state) = done.get(&at) {
            return state;
        }
        let node = self.nodes[at].clone();
        let mut ways = Vec::new();
        for (byte, to) in node.next {
            ways.push((byte, self.append(to, tail, done)));
        }
        let longer = self.branch(ways);
        let state = if node.accepts { self.either(longer, tail) } else { longer };
        done.insert(at, state);
        state
    }

    /// The language of one state, numbered afresh and laid out for fast walks.
    pub fn table(&self, start: State) -> Table {
        let mut order = vec![NONE, start];
        let mut place = HashMap::from([(NONE, 0), (start, 1)]);
        let mut rows = Vec::new();
        while let Some(&state) = order.get(rows.len()) {
            let mut row = [0; 256];
            for (&byte, &to) in &self.nodes[state].next {
                row[usize::from(byte)] = *place.entry(to).or_insert_with(|| {
                    order.push(to);
                    u16::try_from(order.len() - 1).expect("a small automaton")
                });
            }
            rows.push(row);
        }
        Table::new(&rows, order.iter().map(|&state| self.nodes[state].accepts).collect())
    }
}

/// A finished automaton. Row 0 is the dead state, row 1 the start. Bytes that lead alike from every
/// state share a column, so that walks stay within a processor's cache.
pub struct Table {
    column: [u8; 256],
    width: usize,
    next: Vec<u16>,
    accepts: Vec<bool>,
}

impl Table {
    fn new(rows: &[[u16; 256]], accepts: Vec<bool>) -> Table {
        let mut columns: Vec<Vec<u16>> = Vec::new();
        let column = std::array::from_fn(|byte| {
            let own: Vec<u16> = rows.iter().map(|row| row[byte]).collect();
            let known = columns.iter().position(|other| *other == own);
            known.unwrap_or_else(|| {
                columns.push(own);
                columns.len() - 1
            }) as u8
        });
        let next = (0..rows.len()).flat_map(|row| columns.iter().map(move |column| column[row]));
        Table { column, width: columns.len(), next: next.collect(), accepts }
    }

    /// Where a byte leads from a state; 0 if nowhere.
    fn step(&self, state: u16, byte: u8) -> u16 {
        self.next[usize::from(state) * self.width + usize::from(self.column[usize::from(byte)])]
    }

    /// How many bytes begin a word, and the state they lead to.
    fn walk(&self, bytes: &[u8]) -> (usize, u16) {
        let mut state = 1;
        for (place, &byte) in bytes.iter().enumerate() {
            let to = self.step(state, byte);
            if to == 0 {
                return (place, state);
            }
            state = to;
        }
        (bytes.len(), state)
    }

    /// Length of the longest beginning of `bytes` that some word of the language begins with too.
    pub fn longest(&self, bytes: &[u8]) -> usize {
        self.walk(bytes).0
    }

    /// Does a word begin with these bytes?
    pub fn begins(&self, bytes: &[u8]) -> bool {
        self.longest(bytes) == bytes.len()
    }

    /// Are these bytes a word?
    pub fn accepts(&self, bytes: &[u8]) -> bool {
        let (place, state) = self.walk(bytes);
        place == bytes.len() && self.accepts[usize::from(state)]
    }

    /// The bytes that may follow a beginning; none after bytes that are no beginning.
    pub fn followers(&self, bytes: &[u8]) -> Vec<u8> {
        let (place, state) = self.walk(bytes);
        let from = if place == bytes.len() { state } else { 0 };
        (0..=255).filter(|&byte| self.step(from, byte) != 0).collect()
    }

    pub fn may_follow(&self, bytes: &[u8], byte: u8) -> bool {
        let (place, state) = self.walk(bytes);
        place == bytes.len() && self.step(state, byte) != 0
    }

    /// A shortest beginning that leads to each live state. States are numbered in the order of a walk.
    pub fn beginnings(&self) -> Vec<Vec<u8>> {
        let mut found = vec![None; self.accepts.len()];
        found[1] = Some(Vec::new());
        for state in 1..found.len() {
            let word: Vec<u8> = found[state].clone().expect("a state that a walk comes to");
            for byte in 0..=255 {
                let to = usize::from(self.step(state as u16, byte));
                if to != 0 && found[to].is_none() {
                    found[to] = Some([&word[..], &[byte]].concat());
                }
            }
        }
        found.into_iter().flatten().collect()
    }

    /// Number of live states.
    pub fn size(&self) -> usize {
        self.accepts.len() - 1
    }
}

#[cfg(test)]
mod tests {
    use super::*;

    #[test]
    fn small_language() {
        let mut b = Builder::default();
        let numbers = b.words(["1", "12", "20"]);
        let tail = b.run(b"xy", 2);
        let both = b.then(numbers, tail);
        let table = b.table(both);
        for word in ["1xy", "12yy", "20xx"] {
            assert!(table.accepts(word.as_bytes()), "{word}");
        }
        for word in ["", "1", "1x", "2xx", "12xyx", "xy"] {
            assert!(!table.accepts(word.as_bytes()), "{word}");
        }
        assert_eq!(table.longest(b"12xz"), 3);
        assert_eq!(table.longest(b"2x"), 1);
        assert_eq!(table.followers(b"1"), b"2xy");
        assert!(table.followers(b"3").is_empty());
        let beginnings = ["", "1", "2", "12", "1x", "1xx"].map(|word| word.as_bytes().to_vec());
        assert_eq!(table.beginnings(), beginnings);
    }

    #[test]
    fn no_dead_ends() {
        let mut b = Builder::default();
        let blocked = b.branch([(b'a', NONE)]);
        assert_eq!(blocked, NONE);
        let word = b.words(["ab"]);
        assert_eq!(b.then(word, NONE), NONE);
        assert_eq!(b.either(NONE, word), word);
    }
}
