//! Lis by name: equates with values at which an li's words change, names that are
//! numbers or nearly, and items behind them, whose places show the words before.

use super::parts::Writer;

/// Values on both sides of each edge: one word or two for a written number, the
/// upper part 0 or not, 32 signed bits, what `parse_imm` reads.
const VALUES: [&str; 32] = [
    "5",
    "0",
    "1",
    "-1",
    "2047",
    "2048",
    "2049",
    "-2047",
    "-2048",
    "-2049",
    "4095",
    "4096",
    "-4096",
    "305419896",
    "0x7FFFF7FF",
    "0x7FFFF800",
    "2147483647",
    "-2147483648",
    "2147483648",
    "-2147483649",
    "4294967295",
    "4294967296",
    "-9223372036854775807",
    "2048 - 1",
    "-2048 - 1",
    "2147483648 - 1",
    "4294967296 - 4294967291",
    "-4294967296 + 4294965248",
    ". - .",
    ".",
    "-.",
    "m + 1",
];

/// Names, some of which an li reads as a number.
const NAMES: [&str; 20] = [
    "n",
    "n",
    "n",
    "n m",
    "n m k",
    "4294967296",
    "4294967296",
    "-2147483649",
    "0x100000000",
    "-0x80000001",
    "99999999999999999999",
    "0x",
    "- 5",
    "5",
    "-1",
    "2048",
    "4294967295",
    "'a'",
    "'",
    "a0",
];

/// What an li may have where the name has a space.
const SPACES: [&str; 6] = [" ", "  ", "\t", " \t", "\x0b", "\r "];

/// Nothing but such lis, so that most sources go through.
pub fn text(mut writer: Writer<'_>) -> Vec<u8> {
    for _ in 0..1 + writer.random.below(3) {
        writer.named_lis();
        if writer.one_in(4) {
            writer.pick(&[
                "nop\n",
                "li a0, 5\n",
                "li a0, 99999\n",
                "push ra\n",
                ".data\n.byte 1\n.text\n",
            ]);
        }
    }
    writer.text
}

impl Writer<'_> {
    /// An equate, and before or behind it lis of its name with items behind them.
    pub fn named_lis(&mut self) {
        let name = self.random.pick(&NAMES);
        let is_equate_first = self.one_in(2);
        if is_equate_first {
            self.li_equate(name);
        }
        for count in 0..1 + self.random.below(3) {
            self.li_by_name(name);
            match self.random.below(4) {
                0 => self.put(&format!("p{count}: ecall\n")),
                1 => self.put(&format!("p{count}: la a1, p{count}\n")),
                2 => self.put(&format!("p{count}:\n")),
                _ => {}
            }
        }
        if !is_equate_first {
            self.li_equate(name);
        }
    }

    fn li_equate(&mut self, name: &str) {
        let value = self.random.pick(&VALUES);
        let (before, parting) =
            [(".equ ", ", "), (".set ", ","), ("", " = "), ("", "=")][self.random.below(4)];
        self.put(&format!("{before}{name}{parting}{value}"));
        self.end_line();
        if value.starts_with('m') {
            self.put("m = 2046\n");
        }
    }

    fn li_by_name(&mut self, name: &str) {
        self.put("li ");
        match self.one_in(8) {
            true => self.pick(&["x0", "zero"]),
            false => self.register(),
        }
        self.gap();
        self.put(",");
        self.gap();
        for (place, word) in name.split(' ').enumerate() {
            if place > 0 {
                self.pick(&SPACES);
            }
            self.put(word);
        }
        self.end_line();
    }
}
