//! The aho-corasick crate.
use crate::checksum::join;
use aho_corasick::{AhoCorasick, AhoCorasickBuilder};

/// A form of automaton that the crate builds.
pub struct Form {
    pub name: &'static str,
    dfa: bool,
}

pub const FORMS: &[Form] = &[
    Form {
        name: "aho-corasick NFA",
        dfa: false,
    },
    Form {
        name: "aho-corasick DFA",
        dfa: true,
    },
];

pub struct Automaton(AhoCorasick);

impl Form {
    pub fn build(&self, words: &[Vec<u8>]) -> Automaton {
        Automaton(AhoCorasickBuilder::new().dfa(self.dfa).build(words))
    }
}

impl Automaton {
    /// The checksum of an image: the matches with one end are gathered, and then joined.
    pub fn run(&self, image: &[u8]) -> u64 {
        let (mut sum, mut end, mut words) = (0, 0, 0);
        for found in self.0.find_overlapping_iter(image) {
            if found.end() != end {
                sum = join(sum, end, words);
                (end, words) = (found.end(), 0);
            }
            words |= 1 << found.pattern();
        }
        join(sum, end, words)
    }

    pub fn heap_bytes(&self) -> usize {
        self.0.heap_bytes()
    }
}
