//! Names that a wrong word may have meant.

/// The longest word that is compared, in bytes.
const LONGEST: usize = 40;

/// The name that is nearest to a word, if one is near: it begins with the word, or up to a third of the letters make
/// one of the other. Names are in small letters, the word in either.
///
/// ```
/// let names = ["vmalloc", "vfree", "translate"];
/// assert_eq!(calls::text::nearest("Vmaloc", names.into_iter()), Some("vmalloc"));
/// assert_eq!(calls::text::nearest("tran", names.into_iter()), Some("translate"));
/// assert_eq!(calls::text::nearest("open", names.into_iter()), None);
/// ```
pub fn nearest<'a>(word: &str, names: impl Iterator<Item = &'a str>) -> Option<&'a str> {
    if word.len() > LONGEST {
        return None;
    }
    let word = word.to_ascii_lowercase();
    let steps = |name: &&str| match word.len() > 1 && name.starts_with(&word) {
        true => 0,
        false => distance(word.as_bytes(), name.as_bytes()),
    };
    let nearest = names.min_by_key(steps)?;
    (steps(&nearest) * 3 <= nearest.len().max(word.len())).then_some(nearest)
}

/// How many letters are to be changed, put in, left out or swapped with the next to make one word of the other.
fn distance(one: &[u8], other: &[u8]) -> usize {
    let mut before: Vec<usize> = Vec::new();
    let mut row: Vec<usize> = (0..=other.len()).collect();
    for i in 0..one.len() {
        let mut next = vec![i + 1];
        for j in 0..other.len() {
            let changed = row[j] + usize::from(one[i] != other[j]);
            let mut least = changed.min(row[j + 1] + 1).min(next[j] + 1);
            if i > 0 && j > 0 && one[i] == other[j - 1] && one[i - 1] == other[j] {
                least = least.min(before[j - 1] + 1);
            }
            next.push(least);
        }
        before = std::mem::replace(&mut row, next);
    }
    row[other.len()]
}
