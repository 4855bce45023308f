// SPDX-License-Identifier: MIT
//! Random streams of parts of sequences.
const WORDS: [&[u8]; 64] = [
    b"a",
    b"text",
    b"\xc3\xa9",
    b"\xe2\x82\xac",
    b"\xf0\x9f\x98\x80",
    b"\xe2\x82",
    b"\xff",
    b"\x7f",
    b"\n",
    b"\r",
    b"\t",
    b"\x07",
    b"\x18",
    b"\x1a",
    b"\x00",
    b"\x1b",
    b"\x1b\\",
    b"\x1b[",
    b"\x1b]",
    b"\x1bP",
    b"\x1b_",
    b"\x1bX",
    b"\x1b^",
    b"\x9b",
    b"\x9d",
    b"\x90",
    b"\x9c",
    b"\xc2\x9c",
    b"\x84",
    b"0",
    b"1;",
    b"31",
    b":",
    b";",
    b"m",
    b"H",
    b"?25h",
    b"38;5;7m",
    b"1;2;3;4;5;6m",
    b"$",
    b" ",
    b"(B",
    b"7",
    b"2;title",
    b"8;;http://e.com/",
    b"8;id=1;x",
    b"133;A",
    b"133;D;0",
    b"52;c;aGk=",
    b"4;1;?",
    b"q",
    b"+q544e;43",
    b"$qm",
    b"1p",
    b"#1!3~",
    b"\"1;1;2;3",
    b"Ga=d,d=i,i=7",
    b"Gi=1,a=q;AAAA",
    b"\x1b[1m",
    b"\x1b]0;t\x07",
    b"\x1bPq#1;2;9;8;7~\x1b\\",
    b"\x1b_Ga=t;AA\x1b\\",
    b"\x1bP1pxy\x1b\\",
    b"1337;SetMark",
];

/// Numbers from a seed.
pub struct Random(pub u64);

impl Random {
    /// A number below this one.
    pub fn below(&mut self, below: usize) -> usize {
        self.0 = self
            .0
            .wrapping_mul(6_364_136_223_846_793_005)
            .wrapping_add(1);
        (self.0 >> 33) as usize % below
    }

    /// A stream of up to 23 words.
    pub fn stream(&mut self) -> Vec<u8> {
        let count = self.below(24);
        let words = (0..count).map(|_| WORDS[self.below(WORDS.len())]);
        words.collect::<Vec<_>>().concat()
    }
}
