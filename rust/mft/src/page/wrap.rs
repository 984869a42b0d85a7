//! Text in lines that are never wider than a column of the page.

/// Half the width of a digit is what widths are counted in.
const HALVES_OF_A_DIGIT: usize = 2;

/// How wide a character is in a sans-serif font, in halves of a digit's width: as this or less.
fn halves(character: char) -> usize {
    match character {
        ' ' | ',' | '.' | 'i' | 'j' | 'l' => 1,
        'm' | 'w' | 'A'..='V' | 'X'..='Z' => 3,
        'W' | '@' | '%' => 4,
        character if character.is_ascii() => HALVES_OF_A_DIGIT,
        character if character.is_lowercase() => 3,
        _ => 4,
    }
}

/// The text in lines of at most that many digits' width, parted at spaces, and inside a word that is wider than a line.
pub fn wrapped(text: &str, digits: usize) -> Vec<String> {
    let most = digits * HALVES_OF_A_DIGIT;
    let mut lines = vec![String::new()];
    let mut width = 0;
    for word in text.split_whitespace() {
        let word_width: usize = word.chars().map(halves).sum();
        if width > 0 && width + halves(' ') + word_width <= most {
            push(&mut lines, ' ');
            width += halves(' ');
        } else if width > 0 {
            lines.push(String::new());
            width = 0;
        }
        for character in word.chars() {
            if width + halves(character) > most {
                lines.push(String::new());
                width = 0;
            }
            push(&mut lines, character);
            width += halves(character);
        }
    }
    lines
}

/// Puts a character at the end of the last line.
fn push(lines: &mut [String], character: char) {
    if let Some(line) = lines.last_mut() {
        line.push(character);
    }
}
