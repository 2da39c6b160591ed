//! The shape of a line, and the byte at which a line leaves it: the byte of
//! reason 2. The rule is asked of each beginning of the line by itself.

use crate::table::{number, Line};

/// What may stand in a field.
#[derive(Clone, Copy)]
enum Field {
    /// One of these letters.
    Letter(&'static [u8]),
    Number,
}

impl Field {
    fn is_spelled(self, bytes: &[u8]) -> bool {
        match self {
            Field::Letter(letters) => bytes.len() == 1 && letters.contains(&bytes[0]),
            Field::Number => number(bytes).is_some(),
        }
    }

    /// Whether a field may begin so. Whatever a number begins with is a number, and
    /// a letter has nothing before it.
    fn may_begin(self, bytes: &[u8]) -> bool {
        bytes.is_empty() || self.is_spelled(bytes)
    }
}

/// The fields of a line, in order. Where it is open, any number of fields like the
/// last may follow.
#[derive(Clone)]
pub struct Shape {
    fields: Vec<Field>,
    open: bool,
}

/// A letter, then so many numbers.
pub fn lettered(letter: &'static [u8], count: usize) -> Shape {
    let mut fields = vec![Field::Letter(letter)];
    fields.resize(count + 1, Field::Number);
    let open = false;
    Shape { fields, open }
}

/// `R n fibres`, or `R n fibres M`.
pub fn ring() -> [Shape; 2] {
    let (plain, mut marked) = (lettered(b"R", 2), lettered(b"R", 2));
    marked.fields.push(Field::Letter(b"M"));
    [plain, marked]
}

/// `D i j amount front back F-or-B`.
pub fn row_of_sheet() -> Shape {
    let mut shape = lettered(b"D", 5);
    shape.fields.push(Field::Letter(b"FB"));
    shape
}

/// So many numbers, as in a later line of a matrix.
pub fn numbers(count: usize) -> Shape {
    let fields = vec![Field::Number; count];
    let open = false;
    Shape { fields, open }
}

/// Any number of numbers, as in the first line of a matrix.
pub fn any_numbers() -> Shape {
    let fields = vec![Field::Number];
    let open = true;
    Shape { fields, open }
}

impl Shape {
    fn due(&self, at: usize) -> Option<Field> {
        let last = self.fields.last().filter(|_| self.open);
        self.fields.get(at).or(last).copied()
    }

    /// Whether a line of this shape begins with these bytes; behind LF nothing
    /// follows.
    fn may_begin(&self, bytes: &[u8]) -> bool {
        let ended = bytes.last() == Some(&b'\n');
        let body = bytes.strip_suffix(b"\n").unwrap_or(bytes);
        let mut parts: Vec<&[u8]> = body.split(|byte| *byte == b'\t').collect();
        let begun = parts.pop().unwrap_or_default();
        let last = parts.len();
        let spelled = |(at, part): (usize, &&[u8])| {
            let due = self.due(at);
            due.is_some_and(|field| field.is_spelled(part))
        };
        let good = parts.iter().enumerate().all(spelled);
        match self.due(last) {
            Some(field) if ended => {
                good && field.is_spelled(begun) && last + 1 >= self.fields.len()
            }
            Some(field) => good && field.may_begin(begun),
            None => false,
        }
    }
}

/// The first byte at which no line of these shapes goes on like this line, counted
/// from 1: one more than the longest beginning that some line has. It may be one
/// behind the last byte.
pub fn first_fault(line: &Line, shapes: &[Shape]) -> u32 {
    let end: &[u8] = if line.ended { b"\n" } else { b"" };
    let bytes = [line.bytes, end].concat();
    let lengths: Vec<usize> = (1..=bytes.len()).collect();
    // A line that begins with some bytes begins with fewer of them too.
    let good = lengths.partition_point(|length| {
        let begun = &bytes[..*length];
        shapes.iter().any(|shape| shape.may_begin(begun))
    });
    good as u32 + 1
}
