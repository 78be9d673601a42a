//! Rows for the measurements: forms of about so many words, shallow or deep, with few or many binders.

/// A small generator of numbers (xorshift), so that every run takes the same rows.
pub struct Rng(pub u64);

impl Rng {
    pub fn below(&mut self, n: u32) -> u32 {
        self.0 ^= self.0 << 13;
        self.0 ^= self.0 >> 7;
        self.0 ^= self.0 << 17;
        ((self.0 >> 16) % u64::from(n)) as u32
    }

    fn chance(&mut self, percent: u32) -> bool {
        self.below(100) < percent
    }
}

#[derive(Clone, Copy)]
pub struct Class {
    pub words: usize,
    pub deep: bool,
    pub many: bool,
    /// every quantifier has annotations
    pub noted: bool,
    /// declarations have names of their own, and names stand for indices
    pub named: bool,
}

/// The free names are below this, so that no declaration of a named row has one.
const FREE: u32 = 16;

/// Writes forms; indices that dangle go up to `top`, and not to an odd one below `even`.
pub struct Writer<'a> {
    rng: &'a mut Rng,
    pub row: Vec<u32>,
    class: Class,
    top: u32,
    even: u32,
    /// the declared names that are open, from the outside
    scope: Vec<u32>,
    declared: u32,
}

impl<'a> Writer<'a> {
    pub fn new(rng: &'a mut Rng, head: &[u32], class: Class, top: u32, even: u32) -> Writer<'a> {
        assert!(top <= FREE);
        Writer { rng, row: head.to_vec(), class, top, even, scope: vec![], declared: 0 }
    }

    fn binds(&mut self) -> bool {
        let percent = if self.class.many { 40 } else { 4 };
        self.rng.chance(percent)
    }

    /// The tag of a quantifier and its own words, then its declarations, which are open then, and how many. Half of them
    /// have annotations where any have; the last one does if no other.
    fn declare(&mut self, tag: u32, own: &[u32], k: u32) -> u32 {
        let noted = self.class.noted;
        self.row.push(tag + if !noted { 0 } else if tag > 850 { 10 } else { 70 });
        self.row.extend_from_slice(own);
        let n = 1 + self.rng.below(if self.class.many { 4 } else { 2 });
        self.row.push(n);
        let (mut came, mut names) = (false, vec![]);
        for j in 0..n {
            let mut name = self.rng.below(FREE);
            if self.class.named {
                name = FREE + self.declared;
                self.declared += 1;
            }
            self.row.push(name);
            names.push(name);
            if noted {
                let note = self.rng.chance(50) || (!came && j + 1 == n);
                self.row.push(u32::from(note));
                if note {
                    came = true;
                    self.annotation(k);
                }
            }
        }
        self.scope.extend(names);
        n
    }

    /// Closes the declarations that were opened under k others.
    fn close(&mut self, k: u32) {
        self.scope.truncate(k as usize);
    }

    /// An identifier, or one of the small expressions that types are written with.
    fn annotation(&mut self, k: u32) {
        match self.rng.below(4) {
            0 => {
                self.row.push(752);
                self.leaf(k);
            }
            1 => {
                self.row.push(203);
                self.leaf(k);
                self.leaf(k);
            }
            _ => self.leaf(k),
        }
    }

    fn leaf(&mut self, k: u32) {
        if self.rng.chance(40) {
            let name = self.rng.below(FREE);
            self.row.extend([1, name]);
        } else if k > 0 && self.rng.chance(50) {
            let i = self.rng.below(k);
            let word = if self.class.named { [1, self.scope[(k - 1 - i) as usize]] } else { [2, i] };
            self.row.extend(word);
        } else {
            let mut d = self.rng.below(self.top);
            if d < self.even {
                d &= !1;
            }
            self.row.extend(if self.class.named { [1, d] } else { [2, k + d] });
        }
    }

    /// An expression of at most about so many words.
    fn expr(&mut self, words: usize, k: u32) {
        if words < 5 {
            self.leaf(k);
        } else if words >= 14 && self.binds() {
            let n = self.declare(803, &[0], k);
            self.pred((words - 4) / 2, k + n);
            self.expr((words - 4) / 2, k + n);
            self.close(k);
        } else if self.rng.chance(20) {
            self.row.push(752);
            self.expr(words - 1, k);
        } else {
            let tag = [201, 203, 210][self.rng.below(3) as usize];
            self.row.push(tag);
            self.expr((words - 1) / 2, k);
            self.expr((words - 1) / 2, k);
        }
    }

    /// A predicate of at most about so many words, at least 5.
    pub fn pred(&mut self, words: usize, k: u32) {
        if words < 12 {
            self.row.push(112);
            self.leaf(k);
            self.leaf(k);
        } else if self.binds() {
            let tag = 851 + self.rng.below(2);
            let before = self.row.len();
            let n = self.declare(tag, &[], k);
            let used = self.row.len() - before;
            self.pred(words.saturating_sub(used), k + n);
            self.close(k);
        } else if self.rng.chance(40) {
            self.row.push(251);
            self.pred((words - 1) / 2, k);
            self.pred((words - 1) / 2, k);
        } else {
            self.row.push(112);
            self.expr((words - 1) / 2, k);
            self.expr((words - 1) / 2, k);
        }
    }

    /// A predicate with so many levels, each with its share of the words beside it.
    fn spine(&mut self, words: usize, levels: usize, k: u32) {
        if levels == 0 || words < 9 {
            self.pred(words.min(40), k);
            return;
        }
        let side = words / levels;
        if self.binds() {
            let tag = 851 + self.rng.below(2);
            let before = self.row.len();
            let n = self.declare(tag, &[], k);
            let used = self.row.len() - before;
            self.spine(words.saturating_sub(used), levels - 1, k + n);
            self.close(k);
        } else if side < 6 {
            self.row.push(8);
            self.spine(words - 1, levels - 1, k);
        } else {
            self.row.push(252);
            let before = self.row.len();
            self.pred(side + side / 2, k);
            let used = self.row.len() - before;
            self.spine(words.saturating_sub(1 + used), levels - 1, k);
        }
    }

    /// A conjunction that brings the row to about its words; `last` follows as its last child.
    pub fn conjunction(&mut self, last: &[u32]) {
        let room = self.class.words - last.len();
        let head = self.row.len();
        let mut parts = 0;
        self.row.extend([351, 0]);
        if self.class.deep {
            let words = room.saturating_sub(self.row.len() + 5);
            self.pred(5, 0);
            self.spine(words, 48, 0);
            parts = 2;
        }
        while !self.class.deep && (parts < 2 || self.row.len() + 6 < room) {
            let words = (room.saturating_sub(self.row.len())).min(12 + self.rng.below(20) as usize);
            self.pred(words, 0);
            parts += 1;
        }
        self.row.extend_from_slice(last);
        self.row[head + 1] = parts + u32::from(!last.is_empty());
    }
}
