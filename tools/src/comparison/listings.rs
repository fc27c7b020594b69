//! Compares what is printed for a table with its stored listing, in which only what every right answer must
//! print is stored: which conflicts are listed, and in which order, is often free.

/// In a stored listing this line stands for conflict lines that are not determined.
const FREE: &str = "...";

/// Whether the printed listing has the lines of the stored one in their order, but for the conflicts: these
/// are the stored ones in any order, or any where they are free.
pub fn agrees(stored: &str, printed: &str) -> bool {
    let (stored, conflicts) = split(stored);
    let (printed, listed) = split(printed);
    match stored.contains(&FREE) {
        true => stored.into_iter().filter(|&line| line != FREE).eq(printed),
        false => stored == printed && conflicts == listed,
    }
}

/// The lines that are no conflicts, and the conflicts sorted.
fn split(listing: &str) -> (Vec<&str>, Vec<&str>) {
    let (mut conflicts, others): (Vec<&str>, Vec<&str>) = listing
        .split_inclusive('\n')
        .map(|line| line.trim_end_matches('\n'))
        .partition(|line| line.starts_with("conflict "));
    conflicts.sort_unstable();
    (others, conflicts)
}
