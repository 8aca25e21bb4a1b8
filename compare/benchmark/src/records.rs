//! The bytes of a session as long as one can be: first nodes, then what is known of them, then questions.

/// The longest input of a session.
const BYTES: usize = 65_536;

/// How many records of each sort come before the questions.
const COLUMNS: u16 = 180;
const LITERALS: u16 = 20;
const LOW_OPERATIONS: u16 = 200;
const HIGH_OPERATIONS: u16 = 100;
const EQUAL_PAIRS: u16 = 200;
const CONSTANTS: u16 = 50;
const ORDERINGS: u16 = 40;

/// Nodes without children, nodes that operations are made of, and all nodes.
const LEAVES: u16 = COLUMNS + LITERALS;
const BELOW_HIGH: u16 = LEAVES + LOW_OPERATIONS;
const NODES: u16 = BELOW_HIGH + HIGH_OPERATIONS;

/// The length of the records of a question: of a normal form, and of an equality of two.
const NORMAL_BYTES: usize = 6;
const EQUALITY_BYTES: usize = 8;

/// A session of exactly 65,536 bytes, always the same.
pub fn longest_session() -> Vec<u8> {
    let mut writer = Writer { bytes: Vec::with_capacity(BYTES), dice: Dice(1) };
    writer.write_nodes();
    writer.write_knowledge();
    writer.write_questions();
    assert_eq!(writer.bytes.len(), BYTES, "the session is as long as one can be");
    writer.bytes
}

/// Numbers that look like chance, the same in every run (a linear congruential generator).
struct Dice(u64);

impl Dice {
    /// A number below `bound`.
    fn below(&mut self, bound: u16) -> u16 {
        self.0 = self.0.wrapping_mul(6_364_136_223_846_793_005).wrapping_add(1_442_695_040_888_963_407);
        ((self.0 >> 33) % u64::from(bound)) as u16
    }
}

struct Writer {
    bytes: Vec<u8>,
    dice: Dice,
}

impl Writer {
    /// A record of a kind; its body is these fields of 16 bits.
    fn record(&mut self, kind: u16, fields: &[u16]) {
        let header = [2 * fields.len() as u16, kind];
        self.bytes.extend(header.iter().chain(fields).flat_map(|field| field.to_le_bytes()));
    }

    fn write_nodes(&mut self) {
        (0..COLUMNS).for_each(|index| self.record(1, &[0, index]));
        (0..LITERALS).for_each(|value| self.record(2, &[value, 0]));
        (0..LOW_OPERATIONS).for_each(|label| self.write_operation(label, LEAVES));
        (0..HIGH_OPERATIONS).for_each(|label| self.write_operation(label, BELOW_HIGH));
    }

    /// An operation over one to three nodes below a number.
    fn write_operation(&mut self, label: u16, below: u16) {
        let children = 1 + self.dice.below(3);
        let mut fields = vec![label, 0];
        (0..children).for_each(|_| fields.push(self.dice.below(below)));
        self.record(3, &fields);
    }

    fn write_knowledge(&mut self) {
        (0..EQUAL_PAIRS).for_each(|_| self.write_two(4));
        (0..CONSTANTS).for_each(|_| self.write_constant());
        (0..ORDERINGS).for_each(|_| self.write_ordering());
    }

    /// A record of two nodes: an equal pair, or an equality question.
    fn write_two(&mut self, kind: u16) {
        let fields = [self.dice.below(NODES), self.dice.below(NODES)];
        self.record(kind, &fields);
    }

    /// A constant of any flavour; only a known one has a value.
    fn write_constant(&mut self) {
        let (expression, flavour) = (self.dice.below(NODES), self.dice.below(3));
        let value = if flavour == 2 { self.dice.below(LITERALS) } else { 0 };
        self.record(5, &[expression, flavour, value, 0]);
    }

    /// An ordering of one to eight keys.
    fn write_ordering(&mut self) {
        let keys = 1 + self.dice.below(8);
        let fields: Vec<u16> = (0..keys).flat_map(|_| [self.dice.below(NODES), self.dice.below(4)]).collect();
        self.record(8, &fields);
    }

    /// Both questions in turns, until the bytes that are left are a whole number of equality questions; then these.
    fn write_questions(&mut self) {
        while self.left() > EQUALITY_BYTES * NORMAL_BYTES || self.left() % EQUALITY_BYTES != 0 {
            let expression = self.dice.below(NODES);
            self.record(6, &[expression]);
            if self.left() > EQUALITY_BYTES * NORMAL_BYTES {
                self.write_two(7);
            }
        }
        while self.left() > 0 {
            self.write_two(7);
        }
    }

    /// The bytes that are still to be written.
    fn left(&self) -> usize {
        BYTES - self.bytes.len()
    }
}
