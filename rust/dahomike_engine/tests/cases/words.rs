//! A line of a script: words and decimal numbers with a space between them.

/// What is left of a line.
pub struct Words<'a>(pub &'a str);

impl<'a> Words<'a> {
    pub fn word(&mut self) -> &'a str {
        let (word, rest) = self.0.split_once(' ').unwrap_or((self.0, ""));
        self.0 = rest;
        word
    }

    pub fn number(&mut self) -> u32 {
        let word = self.word();
        word.parse().unwrap_or_else(|_| panic!("{word:?} is no number of 32 bits"))
    }

    pub fn index(&mut self) -> usize {
        self.number() as usize
    }

    /// So many numbers.
    pub fn some<const COUNT: usize>(&mut self) -> [u32; COUNT] {
        [(); COUNT].map(|()| self.number())
    }

    /// All numbers up to the line's end.
    pub fn numbers(&mut self) -> Vec<u32> {
        let mut numbers = Vec::new();
        while !self.0.is_empty() {
            numbers.push(self.number());
        }
        numbers
    }
}
