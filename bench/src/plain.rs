//! Aho and Corasick's automaton in plain Rust, with the same table as the proved one.
use crate::checksum::join;
use crate::proved::Node;

pub struct Table(Vec<Node>);

impl Table {
    pub fn build(words: &[Vec<u8>]) -> Table {
        let mut table = Table(vec![Node::default()]);
        for (k, word) in words.iter().enumerate() {
            table.enter(k, word);
        }
        table.link();
        table
    }

    fn child(&self, at: usize, byte: u8) -> Option<usize> {
        let mut child = self.0[at].first as usize;
        while child != 0 {
            if self.0[child].byte == byte {
                return Some(child);
            }
            child = self.0[child].next as usize;
        }
        None
    }

    fn enter(&mut self, k: usize, word: &[u8]) {
        let mut at = 0;
        for (i, &byte) in word.iter().enumerate() {
            at = match self.child(at, byte) {
                Some(child) => child,
                None => {
                    let new = self.0.len();
                    self.0.push(Node {
                        byte,
                        depth: i as u8 + 1,
                        ..Node::default()
                    });
                    if self.0[at].first == 0 {
                        self.0[at].first = new as u16;
                    } else {
                        let mut last = self.0[at].first as usize;
                        while self.0[last].next != 0 {
                            last = self.0[last].next as usize;
                        }
                        self.0[last].next = new as u16;
                    }
                    new
                }
            };
        }
        self.0[at].mask |= 1 << k;
    }

    fn link(&mut self) {
        let mut queue = vec![0];
        let mut done = 0;
        while done < queue.len() {
            let at: usize = queue[done];
            done += 1;
            let mut child = self.0[at].first as usize;
            while child != 0 {
                let back = if at == 0 {
                    0
                } else {
                    let byte = self.0[child].byte;
                    let top = self.child(0, byte).unwrap_or(0);
                    self.follow(self.0[at].back as usize, byte, top)
                };
                self.0[child].back = back as u16;
                self.0[child].mask |= self.0[back].mask;
                queue.push(child);
                child = self.0[child].next as usize;
            }
        }
    }

    fn follow(&self, from: usize, byte: u8, top: usize) -> usize {
        let mut at = from;
        loop {
            if at == 0 {
                return top;
            }
            if let Some(child) = self.child(at, byte) {
                return child;
            }
            at = self.0[at].back as usize;
        }
    }

    /// The node that each byte leads to from the root.
    fn root_row(&self) -> [u16; 256] {
        let mut row = [0; 256];
        let mut child = self.0[0].first;
        while child != 0 {
            let node = self.0[child as usize];
            row[node.byte as usize] = child;
            child = node.next;
        }
        row
    }

    /// The checksum of an image.
    pub fn run(&self, image: &[u8]) -> u64 {
        let row = self.root_row();
        let mut at = 0;
        let mut sum = 0;
        for (before, &byte) in image.iter().enumerate() {
            at = self.follow(at, byte, row[byte as usize] as usize);
            sum = join(sum, before + 1, self.0[at].mask);
        }
        sum
    }

    pub fn nodes(&self) -> &[Node] {
        &self.0
    }
}
