//! A view, and the script line that tells it.

use super::Fault;
use std::fmt::Write;

/// More bytes than the line of any view has.
const MOST_LINE: usize = 512;

/// Where a mesh is looked at from, and how exactly it is to be shown.
#[derive(Clone, Copy, Debug, Default, PartialEq, Eq)]
pub struct View<'a> {
    /// The place that is looked from.
    pub eye: [i32; 3],
    /// The focal length, in pixels.
    pub focal: u32,
    /// How large an error may look, in pixels.
    pub tolerance: u32,
    /// A tolerance for outlines, at most the other.
    pub outline: Option<u32>,
    /// Up to six groups a, b, c, o: what has a x + b y + c z + o below 0 isn't refined.
    pub planes: &'a [[i32; 4]],
    /// Whether nodes are judged by how far their faces are, and not their vertices.
    pub by_deviation: bool,
}

/// What a view did.
#[derive(Clone, Copy, Debug, PartialEq, Eq)]
pub struct Moved {
    /// Splits and collapses that were made.
    pub moves: u32,
    /// How many are left to the view's target, for want of budget.
    pub left: u32,
}

impl View<'_> {
    /// The script line, without its LF.
    pub(super) fn line(&self) -> Result<String, Fault> {
        // (so the number of planes has a bound before room is taken)
        if self.planes.len() > 6 {
            return Err(Fault::Refused { number: 30, place: None });
        }
        let mut line = String::new();
        line.try_reserve_exact(MOST_LINE).map_err(|_| Fault::OutOfMemory)?;
        line.push('v');
        line.push_str(if self.by_deviation { "d" } else { "" });
        line.push_str(if self.outline.is_some() { "s" } else { "" });
        let [x, y, z] = self.eye;
        // Writing into a text can't fail.
        let _ = write!(line, " {x} {y} {z} {} {}", self.focal, self.tolerance);
        if let Some(outline) = self.outline {
            let _ = write!(line, " {outline}");
        }
        for [a, b, c, o] in self.planes {
            let _ = write!(line, " {a} {b} {c} {o}");
        }
        Ok(line)
    }
}

impl Moved {
    /// What the reply to a view's line tells: `settled MOVES`, or `spent MOVES LEFT`.
    pub(super) fn of(reply: &[u8]) -> Moved {
        let text = std::str::from_utf8(reply).unwrap_or("");
        let mut numbers = text.split_ascii_whitespace().filter_map(|word| word.parse().ok());
        Moved { moves: numbers.next().unwrap_or(0), left: numbers.next().unwrap_or(0) }
    }
}

#[cfg(test)]
mod tests {
    use super::*;

    #[test]
    fn a_line_has_its_fields_in_order() {
        let plain = View { eye: [0, -3, 2], focal: 5, tolerance: 7, ..View::default() };
        assert_eq!(plain.line().unwrap(), "v 0 -3 2 5 7");
        let planes = &[[1, 2, 3, -4], [5, 6, 7, 8]];
        let full = View { outline: Some(1), by_deviation: true, planes, ..plain };
        assert_eq!(full.line().unwrap(), "vds 0 -3 2 5 7 1 1 2 3 -4 5 6 7 8");
    }

    #[test]
    fn the_longest_line_takes_no_more_room() {
        let planes = &[[i32::MIN; 4]; 6];
        let (eye, number) = ([i32::MIN; 3], u32::MAX);
        let outline = Some(number);
        let view =
            View { eye, focal: number, tolerance: number, outline, planes, by_deviation: true };
        assert!(view.line().unwrap().len() <= MOST_LINE);
    }

    #[test]
    fn replies_are_read() {
        assert_eq!(Moved::of(b"settled 12\n"), Moved { moves: 12, left: 0 });
        assert_eq!(Moved::of(b"spent 3 4\n"), Moved { moves: 3, left: 4 });
    }
}
