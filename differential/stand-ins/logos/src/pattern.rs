//! A fixed text, or the small part of regular expressions that lexer.rs uses:
//! bytes and `[..]` classes in a row, the last of which may carry `*` or `+`.

pub enum Pattern {
    Text(&'static str),
    Regex(Vec<Piece>),
}

pub struct Piece {
    class: Vec<(u8, u8)>,
    repeat: Repeat,
}

#[derive(PartialEq)]
enum Repeat {
    Once,
    Star,
    Plus,
}

impl Pattern {
    pub fn regex(source: &str) -> Self {
        let mut rest = source.as_bytes();
        let mut pieces: Vec<Piece> = Vec::new();
        while !rest.is_empty() {
            let once = pieces.last().is_none_or(|piece| piece.repeat == Repeat::Once);
            assert!(once, "only the last piece may repeat: {source:?}");
            let class = take_class(&mut rest);
            let repeat = take_repeat(&mut rest);
            pieces.push(Piece { class, repeat });
        }
        Pattern::Regex(pieces)
    }

    pub fn is_text(&self) -> bool {
        matches!(self, Pattern::Text(_))
    }

    /// The length of the longest match at the front of `rest`. As only the last piece
    /// repeats, taking as much as possible never loses a match.
    pub fn match_len(&self, rest: &[u8]) -> Option<usize> {
        match self {
            Pattern::Text(text) => rest.starts_with(text.as_bytes()).then_some(text.len()),
            Pattern::Regex(pieces) => {
                pieces.iter().try_fold(0, |at, piece| Some(at + piece.match_len(&rest[at..])?))
            }
        }
    }
}

impl Piece {
    fn match_len(&self, rest: &[u8]) -> Option<usize> {
        let run = rest.iter().take_while(|byte| self.holds(**byte));
        match self.repeat {
            Repeat::Once => (run.take(1).count() == 1).then_some(1),
            Repeat::Star => Some(run.count()),
            Repeat::Plus => Some(run.count()).filter(|count| *count > 0),
        }
    }

    fn holds(&self, byte: u8) -> bool {
        self.class.iter().any(|(low, high)| (*low..=*high).contains(&byte))
    }
}

fn take_class(rest: &mut &[u8]) -> Vec<(u8, u8)> {
    let first = take(rest);
    if first != b'[' {
        assert!(first.is_ascii_alphanumeric() || first == b'@', "no such piece: {first}");
        return vec![(first, first)];
    }
    let mut class = Vec::new();
    while rest[0] != b']' {
        let low = take(rest);
        let is_range = rest[0] == b'-';
        if is_range {
            take(rest);
        }
        let high = if is_range { take(rest) } else { low };
        class.push((low, high));
    }
    take(rest);
    class
}

fn take_repeat(rest: &mut &[u8]) -> Repeat {
    let repeat = match rest.first() {
        Some(b'*') => Repeat::Star,
        Some(b'+') => Repeat::Plus,
        _ => return Repeat::Once,
    };
    take(rest);
    repeat
}

fn take(rest: &mut &[u8]) -> u8 {
    let (first, others) = rest.split_first().expect("the pattern breaks off");
    *rest = others;
    *first
}
