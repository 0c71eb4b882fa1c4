//! What scripts and sheets share: a line of names in any order, then lines of
//! fields in that order, one space between; numbers.

/// For each of the names in turn, the place of its field in a line.
#[derive(Clone, Copy, Debug, PartialEq, Eq)]
pub struct Places<const N: usize>([usize; N]);

impl<const N: usize> Places<N> {
    /// The order that a line of names gives: each once, in any order, one space
    /// between, at most so many bytes.
    pub fn of(names: [&[u8]; N], line: &[u8], most: usize) -> Option<Places<N>> {
        let fields: [&[u8]; N] = split(line, most)?;
        let mut places = [0; N];
        for (place, name) in places.iter_mut().zip(names) {
            *place = fields.iter().position(|field| *field == name)?;
        }
        Some(Places(places))
    }

    /// The fields of a line of at most so many bytes, in the order of the names.
    pub fn fields<'a>(&self, line: &'a [u8], most: usize) -> Option<[&'a [u8]; N]> {
        let fields: [&[u8]; N] = split(line, most)?;
        Some(self.0.map(|place| fields[place]))
    }
}

/// The fields of a line that is not too long, one space between. Where there
/// are two spaces, or one at an end, a field is empty, and no empty field is a
/// name, a number, a word or a dash.
fn split<const N: usize>(line: &[u8], most: usize) -> Option<[&[u8]; N]> {
    if line.len() > most {
        return None;
    }
    let mut parts = line.split(|&byte| byte == b' ');
    let mut fields = [line; N];
    for field in &mut fields {
        *field = parts.next()?;
    }
    parts.next().is_none().then_some(fields)
}

/// A number without leading zeros, at most 4,294,967,295.
pub fn number(field: &[u8]) -> Option<u32> {
    let leading_zero = field.len() > 1 && field[0] == b'0';
    if field.is_empty() || leading_zero || !field.iter().all(u8::is_ascii_digit) {
        return None;
    }
    std::str::from_utf8(field).ok()?.parse().ok()
}

/// A number without leading zeros that is below the limit.
pub fn number_below(limit: u32, field: &[u8]) -> Option<u32> {
    number(field).filter(|&number| number < limit)
}
