//! The fields of a line, which are separated by spaces.

use x86_64_paging::text::parse_number;

/// The maximum number of numbers in a line.
const MOST_NUMBERS: usize = 4;

/// The first field of a line, which says what the line means.
#[derive(Clone, Copy)]
pub enum Name {
    /// `word`.
    Word,
    /// `free`.
    Free,
    /// `translate`.
    Translate,
    /// `addr`.
    Addr,
    /// `walk`.
    Walk,
    /// `show`.
    Show,
    /// `pool`.
    Pool,
    /// `map`.
    Map,
    /// `map-with`.
    MapWith,
    /// `identity`.
    Identity,
    /// `unmap`.
    Unmap,
    /// `update`.
    Update,
    /// `p5`.
    P5,
    /// `p4`.
    P4,
    /// `p3`.
    P3,
    /// `p2`.
    P2,
    /// `translate-page`.
    TranslatePage,
    /// `cleanup`.
    CleanUp,
    /// `cleanup-range`.
    CleanUpRange,
}

impl Name {
    /// All names.
    const ALL: [Name; 19] = [
        Name::Word,
        Name::Free,
        Name::Translate,
        Name::Addr,
        Name::Walk,
        Name::Show,
        Name::Pool,
        Name::Map,
        Name::MapWith,
        Name::Identity,
        Name::Unmap,
        Name::Update,
        Name::P5,
        Name::P4,
        Name::P3,
        Name::P2,
        Name::TranslatePage,
        Name::CleanUp,
        Name::CleanUpRange,
    ];

    /// Returns the name as it is written in a line.
    fn text(self) -> &'static str {
        match self {
            Name::Word => "word",
            Name::Free => "free",
            Name::Translate => "translate",
            Name::Addr => "addr",
            Name::Walk => "walk",
            Name::Show => "show",
            Name::Pool => "pool",
            Name::Map => "map",
            Name::MapWith => "map-with",
            Name::Identity => "identity",
            Name::Unmap => "unmap",
            Name::Update => "update",
            Name::P5 => "p5",
            Name::P4 => "p4",
            Name::P3 => "p3",
            Name::P2 => "p2",
            Name::TranslatePage => "translate-page",
            Name::CleanUp => "cleanup",
            Name::CleanUpRange => "cleanup-range",
        }
    }

    /// Parses a name.
    fn parse(field: &str) -> Option<Name> {
        for name in Name::ALL {
            if name.text() == field {
                return Some(name);
            }
        }
        None
    }
}

/// The size of a page, as it is written in a line.
#[derive(Clone, Copy)]
pub enum Size {
    /// `4KiB`.
    Size4KiB,
    /// `2MiB`.
    Size2MiB,
    /// `1GiB`.
    Size1GiB,
}

impl Size {
    /// Parses SIZE.
    fn parse(field: &str) -> Option<Size> {
        match field.as_bytes() {
            b"4KiB" => Some(Size::Size4KiB),
            b"2MiB" => Some(Size::Size2MiB),
            b"1GiB" => Some(Size::Size1GiB),
            _ => None,
        }
    }
}

/// The contents of a line: a name, then SIZE if the line is about a page of a size, then numbers.
pub struct Fields {
    /// The name.
    pub name: Name,
    /// SIZE, if the second field is a size.
    pub size: Option<Size>,
    numbers: [u64; MOST_NUMBERS],
    count: usize,
}

impl Fields {
    /// Parses a line. Returns `None` if and only if it has no name, a field that is no number, or more numbers than
    /// any statement has.
    pub fn parse(line: &str) -> Option<Fields> {
        let mut rest = Rest { text: line };
        let name = Name::parse(rest.next_field()?)?;
        let size = rest.next_size();
        let mut numbers = [0; MOST_NUMBERS];
        let count = rest.read_numbers(&mut numbers)?;
        Some(Fields { name, size, numbers, count })
    }

    /// Returns the numbers.
    pub fn numbers(&self) -> &[u64] {
        &self.numbers[..self.count]
    }
}

/// The fields of a line that are not parsed yet.
struct Rest<'a> {
    text: &'a str,
}

impl<'a> Rest<'a> {
    /// Returns the next field, or `None` if only spaces are left.
    fn next_field(&mut self) -> Option<&'a str> {
        let text = self.text.trim_start_matches(' ');
        self.text = "";
        if text.is_empty() {
            return None;
        }
        let Some((field, rest)) = text.split_once(' ') else {
            return Some(text);
        };
        self.text = rest;
        Some(field)
    }

    /// Parses SIZE, and leaves the next field if it is no size.
    fn next_size(&mut self) -> Option<Size> {
        let mut ahead = Rest { text: self.text };
        let size = Size::parse(ahead.next_field()?)?;
        self.text = ahead.text;
        Some(size)
    }

    /// Parses all remaining fields as numbers, and returns how many there are.
    fn read_numbers(&mut self, numbers: &mut [u64; MOST_NUMBERS]) -> Option<usize> {
        for (count, number) in numbers.iter_mut().enumerate() {
            match self.next_field() {
                Some(field) => *number = read_number(field)?,
                None => return Some(count),
            }
        }
        match self.next_field() {
            Some(_) => None,
            None => Some(MOST_NUMBERS),
        }
    }
}

/// Parses a number, as [`parse_number`] does.
pub fn read_number(text: &str) -> Option<u64> {
    parse_number(text)
}
