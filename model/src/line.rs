//! The lines of a trial.

use std::fmt;
use std::str::{FromStr, SplitAsciiWhitespace};

use crate::file::Kind;
use crate::table::Side;

/// How the charts of a register are put together: one chart, or two sittings.
#[derive(Clone, Debug, PartialEq, Eq)]
pub enum Shape {
    One,
    Two(Box<[Shape; 2]>),
}

impl Shape {
    /// Two sittings of two shapes.
    pub fn two(first: Shape, second: Shape) -> Shape {
        Shape::Two(Box::new([first, second]))
    }

    /// How many charts there are.
    pub fn charts(&self) -> usize {
        match self {
            Shape::One => 1,
            Shape::Two(shapes) => shapes.iter().map(Shape::charts).sum(),
        }
    }

    /// The shape at the start of the text, and the text after it.
    fn parse(text: &str) -> Option<(Shape, &str)> {
        if let Some(rest) = text.strip_prefix('x') {
            return Some((Shape::One, rest));
        }
        let (first, rest) = Shape::parse(text.strip_prefix('(')?)?;
        let (second, rest) = Shape::parse(rest)?;
        Some((Shape::two(first, second), rest.strip_prefix(')')?))
    }
}

impl fmt::Display for Shape {
    fn fmt(&self, f: &mut fmt::Formatter) -> fmt::Result {
        match self {
            Shape::One => f.write_str("x"),
            Shape::Two(shapes) => write!(f, "({}{})", shapes[0], shapes[1]),
        }
    }
}

/// The bytes of a file, written in lower-case hex, or as `-` if there are none.
#[derive(Clone, Debug, PartialEq, Eq)]
pub struct Bytes(pub Vec<u8>);

impl fmt::Display for Bytes {
    fn fmt(&self, f: &mut fmt::Formatter) -> fmt::Result {
        if self.0.is_empty() {
            return f.write_str("-");
        }
        self.0.iter().try_for_each(|byte| write!(f, "{byte:02x}"))
    }
}

impl FromStr for Bytes {
    type Err = String;

    fn from_str(text: &str) -> Result<Bytes, String> {
        if text == "-" {
            return Ok(Bytes(Vec::new()));
        }
        let digits: Option<Vec<u8>> = text.chars().map(|digit| Some(digit.to_digit(16)? as u8)).collect();
        match digits {
            Some(digits) if digits.len() % 2 == 0 => Ok(Bytes(digits.chunks(2).map(|two| 16 * two[0] + two[1]).collect())),
            _ => Err(format!("{text} is no hex")),
        }
    }
}

/// One line of a trial.
#[derive(Clone, Debug, PartialEq, Eq)]
pub enum Line {
    Read(Kind, Bytes),
    Tell(Kind),
    /// Makes a register of the chart in hand of that kind.
    RegisterOfHand(u32, Kind),
    /// Makes a register of the charts of files.
    Register(u32, Shape, Vec<Bytes>),
    Open(Side),
    Claim(u32, u32, u32),
    Close,
    Show(u32, u32, Vec<i32>),
    Enter,
    Abandon,
    Ask(u32, u32),
    Weigh(Side, u32, u32, Vec<i32>),
    Report,
}

impl Line {
    /// What stands at the start of the line that answers this one.
    pub fn head(&self) -> String {
        match self {
            Line::Read(kind, _) => format!("read {kind}"),
            Line::Tell(kind) => format!("tell {kind}"),
            Line::RegisterOfHand(..) | Line::Register(..) => "register".to_string(),
            Line::Open(side) => format!("open {side}"),
            Line::Claim(s, t, value) => format!("claim {s} {t} {value}"),
            Line::Close => "close".to_string(),
            Line::Show(s, t, _) => format!("show {s} {t}"),
            Line::Enter => "enter".to_string(),
            Line::Abandon => "abandon".to_string(),
            Line::Ask(s, t) => format!("ask {s} {t}"),
            Line::Weigh(side, s, t, _) => format!("weigh {side} {s} {t}"),
            Line::Report => "report".to_string(),
        }
    }

    /// Whether the line is a call of the register.
    pub fn is_call(&self) -> bool {
        match self {
            Line::Read(..) | Line::Tell(_) | Line::RegisterOfHand(..) | Line::Register(..) => false,
            Line::Weigh(..) | Line::Report => false,
            Line::Open(_) | Line::Claim(..) | Line::Close | Line::Show(..) => true,
            Line::Enter | Line::Abandon | Line::Ask(..) => true,
        }
    }

    /// Whether the line is a call of the register or a weighing.
    pub fn is_call_or_weighing(&self) -> bool {
        self.is_call() || matches!(self, Line::Weigh(..))
    }
}

impl fmt::Display for Line {
    fn fmt(&self, f: &mut fmt::Formatter) -> fmt::Result {
        match self {
            Line::RegisterOfHand(top, kind) => return write!(f, "register {top} {kind}"),
            Line::Register(top, shape, _) => write!(f, "register {top} {shape}")?,
            _ => f.write_str(&self.head())?,
        }
        match self {
            Line::Read(_, file) => write!(f, " {file}"),
            Line::Register(_, _, files) => files.iter().try_for_each(|file| write!(f, " {file}")),
            Line::Show(_, _, words) | Line::Weigh(_, _, _, words) => words.iter().try_for_each(|word| write!(f, " {word}")),
            _ => Ok(()),
        }
    }
}

/// The fields of a line, one after the other.
struct Fields<'a>(SplitAsciiWhitespace<'a>);

impl<'a> Fields<'a> {
    fn text(&mut self) -> Result<&'a str, String> {
        self.0.next().ok_or_else(|| "there are too few fields".to_string())
    }

    fn number<T: FromStr>(&mut self) -> Result<T, String> {
        let text = self.text()?;
        text.parse().map_err(|_| format!("{text} is no number that can stand here"))
    }

    fn words(&mut self) -> Result<Vec<i32>, String> {
        let word = |text: &str| text.parse().map_err(|_| format!("{text} is no word"));
        self.0.by_ref().map(word).collect()
    }

    fn side(&mut self) -> Result<Side, String> {
        match self.text()? {
            "upper" => Ok(Side::Upper),
            "lower" => Ok(Side::Lower),
            text => Err(format!("{text} is no side")),
        }
    }

    fn kind(&mut self) -> Result<Kind, String> {
        let text = self.text()?;
        kind(text).ok_or_else(|| format!("{text} is no kind of chart"))
    }

    /// What comes after `register` and the top.
    fn charts(&mut self, top: u32) -> Result<Line, String> {
        let text = self.text()?;
        if let Some(kind) = kind(text) {
            return Ok(Line::RegisterOfHand(top, kind));
        }
        match Shape::parse(text) {
            Some((shape, "")) => {
                let files: Result<Vec<Bytes>, String> = (0..shape.charts()).map(|_| self.text()?.parse()).collect();
                Ok(Line::Register(top, shape, files?))
            }
            _ => Err(format!("{text} is no shape")),
        }
    }
}

fn kind(text: &str) -> Option<Kind> {
    match text {
        "weighted" => Some(Kind::Weighted),
        "choice" => Some(Kind::Choice),
        _ => None,
    }
}

impl FromStr for Line {
    type Err = String;

    fn from_str(text: &str) -> Result<Line, String> {
        let mut fields = Fields(text.split_ascii_whitespace());
        let line = match fields.text()? {
            "read" => Line::Read(fields.kind()?, fields.text()?.parse()?),
            "tell" => Line::Tell(fields.kind()?),
            "register" => {
                let top = fields.number()?;
                fields.charts(top)?
            }
            "open" => Line::Open(fields.side()?),
            "claim" => Line::Claim(fields.number()?, fields.number()?, fields.number()?),
            "close" => Line::Close,
            "show" => Line::Show(fields.number()?, fields.number()?, fields.words()?),
            "enter" => Line::Enter,
            "abandon" => Line::Abandon,
            "ask" => Line::Ask(fields.number()?, fields.number()?),
            "weigh" => Line::Weigh(fields.side()?, fields.number()?, fields.number()?, fields.words()?),
            "report" => Line::Report,
            text => return Err(format!("{text} begins no line of a trial")),
        };
        match fields.0.next() {
            Some(text) => Err(format!("{text} is one field too many")),
            None => Ok(line),
        }
    }
}
