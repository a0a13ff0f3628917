//! Makes a text that shows something smaller, as long as it still shows it.

/// Tries are bounded, as a text that must stay long would take very many.
const MOST_TRIES: usize = 2000;

/// Drops pieces, large ones first, while `shows` holds.
pub fn shrink(text: &[u8], shows: impl Fn(&[u8]) -> bool) -> Vec<u8> {
    let mut text = text.to_vec();
    let mut tries = MOST_TRIES;
    let mut size = text.len().div_ceil(2);
    while size > 0 {
        let before = text.len();
        drop_pieces(&mut text, size, &mut tries, &shows);
        let repeat = size == 1 && text.len() < before;
        size = if repeat { 1 } else { size / 2 };
    }
    text
}

fn drop_pieces(text: &mut Vec<u8>, size: usize, tries: &mut usize, shows: &impl Fn(&[u8]) -> bool) {
    let mut at = 0;
    while at < text.len() && *tries > 0 {
        let end = (at + size).min(text.len());
        let shorter = [&text[..at], &text[end..]].concat();
        *tries -= 1;
        if shows(&shorter) {
            *text = shorter;
        } else {
            at = end;
        }
    }
}

#[cfg(test)]
mod tests {
    use super::shrink;

    #[test]
    fn only_what_shows_stays() {
        let shows = |text: &[u8]| text.contains(&b'a') && text.contains(&b'b');
        assert_eq!(shrink(b"xxaxxxxxbxx", shows), b"ab");
    }

    #[test]
    fn nothing_goes_where_all_is_needed() {
        assert_eq!(shrink(b"abc", |text| text == b"abc"), b"abc");
    }
}
