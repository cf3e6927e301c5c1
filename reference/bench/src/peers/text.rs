//! A text read in one pass. A node is written as soon as its operands are; words whose operand has not ended wait on a stack, each with
//! how many brackets stand open behind it. How many nodes an item adds is known when it is read: once they are too many nothing is
//! written any more, and the rest is read for questions 16 and 17 alone. All of it is one function to the compiler, so that the place
//! stays in a register.
use super::form::Set;
use super::rule::{BELOW, EQUAL, IMPLIES, SINCE, WEAK_PREVIOUS};
use super::{no, No};

#[derive(Clone, Copy, PartialEq)]
enum Word {
    /// Before any word.
    Start,
    Not,
    WeakPrevious,
    Previous,
    Once,
    SoFar,
    Since,
    And,
    Or,
    Implies,
}

/// How tightly each word binds, in their order.
const LEVELS: [u8; 10] = [0, 5, 5, 5, 5, 5, 4, 3, 2, 1];

struct Reader<'a, X: Set> {
    text: &'a [u8],
    at: usize,
    nodes: X::Table<X>,
    /// How many are written.
    written: usize,
    /// How many the items read so far need.
    needed: usize,
    /// The words whose operand, or whose right one, has not ended; the node on their left; the brackets that stand open behind them.
    words: X::OneMore<Word>,
    lefts: X::OneMore<u8>,
    brackets: X::OneMore<usize>,
    top: usize,
    /// Brackets that are open.
    open: usize,
    /// The first number that is out of range.
    out_of_range: usize,
}

fn joined<X: Set>(kind: u8, left: u8, right: u8) -> X {
    X::of_top((kind as u64) << 61 | (left as u64) << (43 - X::OPERAND) | (right as u64) << (43 - 2 * X::OPERAND))
}

impl<X: Set> Reader<'_, X> {
    #[inline(always)]
    fn byte(&self) -> u8 {
        // no byte of the grammar
        *self.text.get(self.at).unwrap_or(&0)
    }

    #[inline(always)]
    fn skip_spaces(&mut self) {
        while self.byte() == b' ' {
            self.at += 1;
        }
    }

    /// A word whose first letter stands here; the byte after it is no letter.
    #[inline(always)]
    fn word(&mut self, word: &'static [u8]) -> Result<(), No> {
        let rest = &self.text[self.at..];
        if rest.starts_with(word) {
            self.at += word.len();
            if !self.byte().is_ascii_lowercase() {
                return Ok(());
            }
            return no(16, self.at);
        }
        no(16, self.at + rest.iter().zip(word).take_while(|(a, b)| a == b).count())
    }

    /// How many times a byte stands here, which are passed.
    #[inline(always)]
    fn run(&mut self, of: u8) -> usize {
        let count = self.text[self.at..].iter().take_while(|&&byte| byte == of).count();
        self.at += count;
        count
    }

    /// Its value, or some number above `most`.
    #[inline(always)]
    fn number(&mut self, most: u32) -> Result<u32, No> {
        let start = self.at;
        self.run(b'0');
        let mut value = 0;
        loop {
            let digit = self.byte().wrapping_sub(b'0') as u32;
            if digit > 9 {
                break;
            }
            self.at += 1;
            value = 10 * value + digit;
            if value > most {
                self.out_of_range = self.out_of_range.min(start);
                self.at += self.text[self.at..].iter().take_while(|byte| byte.is_ascii_digit()).count();
                break;
            }
        }
        if self.at == start {
            return no(16, start);
        }
        Ok(value)
    }

    #[inline(always)]
    fn put(&mut self, node: X) {
        self.nodes.as_mut()[X::place(self.written)] = node;
        self.written += 1;
    }

    #[inline(always)]
    fn put_false(&mut self) {
        self.put(X::default());
    }

    /// Puts an implies of a node and false.
    #[inline(always)]
    fn put_not(&mut self, of: u8) {
        self.put_false();
        self.put(joined(IMPLIES, of, of + 1));
    }

    #[inline(always)]
    fn put_true(&mut self) {
        self.put_false();
        self.put_not(self.written as u8 - 1);
    }

    /// Counts an item's nodes: is there room for them?
    #[inline(always)]
    fn room(&mut self, nodes: usize) -> bool {
        self.needed += nodes;
        self.needed <= X::MOST_NODES
    }

    #[inline(always)]
    fn wait(&mut self, word: Word) {
        self.top += 1;
        self.words.as_mut()[self.top] = word;
        self.lefts.as_mut()[self.top] = (self.written as u8).wrapping_sub(1);
        self.brackets.as_mut()[self.top] = 0;
    }

    /// The words of this level or a higher one have all their operands: their nodes follow.
    #[inline(always)]
    fn end(&mut self, level: u8) {
        loop {
            let word = self.words.as_ref()[self.top];
            if LEVELS[word as usize] < level || self.brackets.as_ref()[self.top] > 0 {
                return;
            }
            let left = self.lefts.as_ref()[self.top];
            self.top -= 1;
            let right = self.written as u8 - 1;
            match word {
                Word::Start => {}
                Word::Not => self.put_not(right),
                Word::WeakPrevious => self.put(joined(WEAK_PREVIOUS, right, 0)),
                Word::Previous => {
                    self.put_not(right);
                    self.put(joined(WEAK_PREVIOUS, right + 2, 0));
                    self.put_not(right + 3);
                }
                Word::Once | Word::Since => self.put(joined(SINCE, left, right)),
                Word::SoFar => {
                    self.put_not(right);
                    self.put(joined(SINCE, left, right + 2));
                    self.put_not(right + 3);
                }
                Word::And => {
                    self.put_not(right);
                    self.put(joined(IMPLIES, left, right + 2));
                    self.put_not(right + 3);
                }
                Word::Or | Word::Implies => self.put(joined(IMPLIES, left, right)),
            }
        }
    }

    /// Closes so many brackets.
    #[inline(always)]
    fn close(&mut self, mut count: usize) {
        while count > 0 {
            self.end(1);
            let brackets = &mut self.brackets.as_mut()[self.top];
            let closed = count.min(*brackets);
            *brackets -= closed;
            count -= closed;
        }
    }

    #[inline(always)]
    fn prefix(&mut self, letters: &'static [u8], word: Word, nodes: usize) -> Result<(), No> {
        self.word(letters)?;
        if self.room(nodes) {
            if matches!(word, Word::Once | Word::SoFar) {
                self.put_true();
            }
            self.wait(word);
        }
        Ok(())
    }

    #[inline(always)]
    fn infix(&mut self, letters: &'static [u8], word: Word, nodes: usize) -> Result<(), No> {
        self.word(letters)?;
        if self.room(nodes) {
            // implies groups to the right
            self.end(LEVELS[word as usize].max(2));
            if word == Word::Or {
                self.put_not(self.written as u8 - 1);
            }
            self.wait(word);
        }
        Ok(())
    }

    #[inline(always)]
    fn test(&mut self) -> Result<(), No> {
        self.at += 1;
        let register = self.number(15)?;
        self.skip_spaces();
        let kind = match self.byte() {
            b'=' => EQUAL,
            b'<' => BELOW,
            _ => return no(16, self.at),
        };
        self.at += 1;
        self.skip_spaces();
        let constant = self.number(16_383)?;
        if self.room(1) {
            self.put(X::of_top((kind as u64) << 61 | (register as u64) << 57 | (constant as u64) << 43));
        }
        Ok(())
    }

    /// Prefix words and brackets, then a constant or a test.
    #[inline(always)]
    fn operand(&mut self) -> Result<(), No> {
        loop {
            self.skip_spaces();
            match self.byte() {
                b'(' => {
                    let count = self.run(b'(');
                    self.open += count;
                    self.brackets.as_mut()[self.top] += count;
                }
                b'r' => return self.test(),
                b't' => {
                    self.word(b"true")?;
                    if self.room(3) {
                        self.put_true();
                    }
                    return Ok(());
                }
                b'f' => {
                    self.word(b"false")?;
                    if self.room(1) {
                        self.put_false();
                    }
                    return Ok(());
                }
                b'n' => self.prefix(b"not", Word::Not, 2)?,
                b'w' => self.prefix(b"wprev", Word::WeakPrevious, 1)?,
                b'p' => self.prefix(b"prev", Word::Previous, 5)?,
                b'o' => self.prefix(b"once", Word::Once, 4)?,
                b's' => self.prefix(b"sofar", Word::SoFar, 8)?,
                _ => return no(16, self.at),
            }
        }
    }

    /// Brackets that close, then a word between two operands, which is true, or the end.
    #[inline(always)]
    fn goes_on(&mut self) -> Result<bool, No> {
        loop {
            self.skip_spaces();
            match self.byte() {
                b')' if self.open > 0 => {
                    let start = self.at;
                    let count = self.run(b')');
                    if count > self.open {
                        return no(16, start + self.open);
                    }
                    self.open -= count;
                    if self.needed <= X::MOST_NODES {
                        self.close(count);
                    }
                }
                b's' => return self.infix(b"since", Word::Since, 1).map(|_| true),
                b'a' => return self.infix(b"and", Word::And, 5).map(|_| true),
                b'o' => return self.infix(b"or", Word::Or, 3).map(|_| true),
                b'i' => return self.infix(b"implies", Word::Implies, 1).map(|_| true),
                _ if self.at == self.text.len() && self.open == 0 => return Ok(false),
                _ => return no(16, self.at),
            }
        }
    }
}

/// Questions 16, 17, 18 and 13, then the nodes.
pub fn read_text<X: Set>(text: &[u8], out: &mut [X]) -> Result<usize, No> {
    let mut r: Reader<X> = Reader {
        text,
        at: 0,
        nodes: X::table(X::default()),
        written: 0,
        needed: 0,
        words: X::one_more(Word::Start),
        lefts: X::one_more(0),
        brackets: X::one_more(0),
        top: 0,
        open: 0,
        out_of_range: usize::MAX,
    };
    r.operand()?;
    while r.goes_on()? {
        r.operand()?;
    }
    if r.out_of_range < usize::MAX {
        return no(17, r.out_of_range);
    }
    if r.needed > X::MOST_NODES {
        return no(18, 0);
    }
    r.end(1);
    if out.len() < r.written {
        return no(13, 0);
    }
    out[..r.written].copy_from_slice(&r.nodes.as_ref()[..r.written]);
    Ok(r.written)
}
