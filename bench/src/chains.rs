//! Decoding along chains of edges, in Rust: the algorithm of the proved decoder.

/// A table with its edges chained by word; edge e is that of state e / 16 with datum e % 16.
pub struct Chains {
    pub p: usize,
    pub q: usize,
    pub states: usize,
    pub memory: usize,
    pub lookahead: usize,
    pub tail: usize,
    pub word: [u8; 2048],
    pub next: [u8; 2048],
    head: [u16; 256],
    link: [u16; 2048],
}

impl Chains {
    /// The table of a record of the outside implementation.
    pub fn of(record: &reference::record::Record) -> Self {
        let header = record.header();
        let mut chains = Chains {
            p: header.p,
            q: header.q,
            states: header.states,
            memory: header.m,
            lookahead: header.a,
            tail: header.tail,
            word: [0; 2048],
            next: [0; 2048],
            head: [0; 256],
            link: [0; 2048],
        };
        for s in 0..header.states {
            for d in 0..1 << header.p {
                let entry = record.table.rows[s][d];
                chains.word[s * 16 + d] = entry.word;
                chains.next[s * 16 + d] = entry.next as u8;
            }
        }
        chains.chain();
        chains
    }

    fn chain(&mut self) {
        for e in 0..self.states * 16 {
            if e % 16 < 1 << self.p {
                let w = usize::from(self.word[e]);
                self.link[e] = self.head[w];
                self.head[w] = e as u16 + 1;
            }
        }
    }

    fn each(&self, word: u8, mut visit: impl FnMut(usize, usize)) {
        let mut at = usize::from(self.head[usize::from(word)]);
        while at > 0 {
            let e = at - 1;
            visit(e, usize::from(self.next[e]));
            at = usize::from(self.link[e]);
        }
    }

    fn block(&self, words: &[u8], i: usize) -> u8 {
        let mut past = [i >= self.memory; 128];
        past[0] = true;
        for &w in &words[i.saturating_sub(self.memory)..i] {
            let mut to = [false; 128];
            self.each(w, |e, y| to[y] |= past[e / 16]);
            past = to;
        }
        let mut ahead = [true; 128];
        for &w in words[i + 1..=i + self.lookahead].iter().rev() {
            let mut to = [false; 128];
            self.each(w, |e, y| to[e / 16] |= ahead[y]);
            ahead = to;
        }
        let (mut mark, mut datum) = (254, None);
        self.each(words[i], |e, y| {
            if past[e / 16] {
                mark = 255;
                if ahead[y] {
                    datum = Some((e % 16) as u8);
                }
            }
        });
        datum.unwrap_or(mark)
    }

    /// The blocks of words, which are long enough and below 2^q.
    pub fn decode(&self, words: &[u8], out: &mut [u8]) -> usize {
        assert!(words.iter().all(|&w| usize::from(w) < 1 << self.q));
        let count = words.len() - self.lookahead;
        for (i, byte) in out[..count].iter_mut().enumerate() {
            *byte = self.block(words, i);
        }
        count
    }
}
