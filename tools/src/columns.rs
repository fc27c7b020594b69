//! Rows of words under one another.

/// One line for each row, the gap between the columns, no blank at a line's end. A number, also a negative
/// one, stands at the right of its column, any other word at the left.
pub fn aligned(rows: &[Vec<String>], gap: &str) -> String {
    let columns = rows.iter().map(Vec::len).max().unwrap_or(0);
    let width = |column: usize| rows.iter().filter_map(|row| row.get(column)).map(|word| length(word)).max();
    let widths: Vec<usize> = (0..columns).map(|column| width(column).unwrap_or(0)).collect();
    let padded = |(column, word): (usize, &String)| {
        let blanks = " ".repeat(widths[column] - length(word));
        let is_number = |word: &str| word.starts_with(|first: char| first.is_ascii_digit());
        if is_number(word.strip_prefix('-').unwrap_or(word)) {
            format!("{blanks}{word}")
        } else {
            format!("{word}{blanks}")
        }
    };
    let line = |row: &Vec<String>| {
        let words: Vec<String> = row.iter().enumerate().map(padded).collect();
        format!("{}\n", words.join(gap).trim_end())
    };
    rows.iter().map(line).collect()
}

fn length(word: &str) -> usize {
    word.chars().count()
}
