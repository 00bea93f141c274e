//! Equates of distinct names in any order: chains up and down, cycles,
//! undefined names, and sums at the edges of 64 bits.

use super::parts::Writer;

/// Values whose sums and opposites are at the edges.
const EDGES: [&str; 12] = [
    "9223372036854775807",
    "9223372036854775806",
    "0x7FFFFFFFFFFFFFFF",
    "0x4000000000000000",
    "4611686018427387904",
    "4611686018427387903",
    "1",
    "2",
    "0",
    "4294967295",
    "2147483648",
    "2047",
];

/// How each name is made from its number.
const FORMS: [(&str, &str); 6] = [
    ("e", ""),
    (".L", ""),
    ("_", "x"),
    ("$", ""),
    ("k", ".1"),
    ("E_", "$"),
];

pub fn text(mut writer: Writer<'_>) -> Vec<u8> {
    let count = match writer.random.below(12) {
        0 => 2 + writer.random.below(40),
        _ => 1 + writer.random.below(7),
    };
    let form = FORMS[writer.random.below(FORMS.len())];
    let labels = writer.random.below(4);
    let is_edge = writer.one_in(3);
    // In this order each uses only those before it; the text has another.
    let mut order: Vec<usize> = (0..count).collect();
    match writer.random.below(4) {
        0 => order.reverse(),
        1 => {}
        _ => {
            for place in (1..count).rev() {
                let other = writer.random.below(place + 1);
                order.swap(place, other);
            }
        }
    }
    let mut defined = 0;
    for number in order {
        while defined < labels && writer.one_in(3) {
            writer.define_label(&mut defined);
        }
        writer.equate_of(number, count, form, labels, is_edge);
        if writer.one_in(8) {
            writer.pick(&[
                "nop\n",
                "li a0, 5\n",
                "push ra\n",
                ".data\n.byte 1\n",
                ".bss\n.skip 3\n",
                ".text\n",
                "\n",
                "# c\n",
            ]);
        }
    }
    while defined < labels {
        writer.define_label(&mut defined);
    }
    if writer.one_in(3) {
        writer.put(".text\n");
        for _ in 0..1 + writer.random.below(3) {
            let number = writer.random.below(count);
            writer.put("li a0, ");
            writer.equate_name(number, form);
            writer.put("\n");
        }
    }
    if writer.is_odd() {
        writer.equate_of(0, count, form, labels, is_edge);
    }
    writer.text
}

impl Writer<'_> {
    fn define_label(&mut self, defined: &mut usize) {
        let line = format!("l{defined}:\n");
        self.put(&line);
        *defined += 1;
    }

    fn equate_name(&mut self, number: usize, (before, after): (&str, &str)) {
        let name = format!("{before}{number}{after}");
        self.put(&name);
    }

    fn equate_of(
        &mut self,
        number: usize,
        count: usize,
        form: (&str, &str),
        labels: usize,
        is_edge: bool,
    ) {
        let (before, parting) = [
            ("", "="),
            ("", " = "),
            (".equ ", ","),
            (".set ", ", "),
            (".equ ", " "),
        ][self.random.below(5)];
        self.put(before);
        self.equate_name(number, form);
        self.put(parting);
        for term in 0..1 + self.random.below(3) {
            if term > 0 {
                self.pick(&["+", "-", " + ", " - "]);
            }
            if self.one_in(4) {
                self.pick(&["-", "+", "--", "- ", "-+"]);
            }
            match self.random.below(8) {
                0 => self.put("."),
                1 if labels > 0 => {
                    let label = self.random.below(labels);
                    self.put(&format!("l{label}"));
                }
                2..=5 if number > 0 => {
                    // Mostly the nearest, so that chains are long.
                    let near = 1 + self.random.below(number.min(2));
                    let used = match self.random.below(4) {
                        0 => self.random.below(number),
                        _ => number - near,
                    };
                    self.equate_name(used, form);
                }
                6 if self.is_odd() => {
                    let used = self.random.below(count);
                    self.equate_name(used, form);
                }
                _ if self.is_odd() => self.pick(&["u", "u 5", "5 u", "(", "5f", ""]),
                _ if is_edge => self.pick(&EDGES),
                _ => {
                    let value = self.random.below(5000);
                    self.put(&value.to_string());
                }
            }
        }
        self.put("\n");
    }
}
