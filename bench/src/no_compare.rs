//! In place of the aho-corasick crate, where it is not installed: no form of automaton.
pub struct Form {
    pub name: &'static str,
    none: Automaton,
}

pub const FORMS: &[Form] = &[];

#[derive(Clone, Copy)]
pub enum Automaton {}

impl Form {
    pub fn build(&self, _words: &[Vec<u8>]) -> Automaton {
        self.none
    }
}

impl Automaton {
    pub fn run(&self, _image: &[u8]) -> u64 {
        match *self {}
    }

    pub fn heap_bytes(&self) -> usize {
        match *self {}
    }
}
