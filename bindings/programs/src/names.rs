//! Names that are like a word: of which it is a beginning, or that are similar.

/// Returns the beginnings of a name that begin no other of the names: its abbreviations.
pub fn abbreviations(name: &str, names: &[String]) -> Vec<String> {
    let begins_one = |part: &&str| names.iter().filter(|other| other.starts_with(part)).count() == 1;
    (1..name.len()).map(|end| &name[..end]).filter(begins_one).map(str::to_owned).collect()
}

/// Returns the last of the names that are most similar to a word, if one is similar at all.
pub fn most_similar<'a>(word: &str, names: impl Iterator<Item = &'a str>) -> Option<&'a str> {
    let similar = names.map(|name| (similarity(word, name), name)).filter(|each| each.0 > 0.7);
    similar.max_by(|one, other| one.0.total_cmp(&other.0)).map(|each| each.1)
}

/// Returns the Jaro similarity of two words, from 0 to 1: of the characters that both have at about the same place, and
/// how many of these are in another order.
fn similarity(one: &str, other: &str) -> f64 {
    let (one, other): (Vec<_>, Vec<_>) = (one.chars().collect(), other.chars().collect());
    let range = (one.len().max(other.len()) / 2).saturating_sub(1);
    let (mut taken, mut found) = (vec![false; other.len()], Vec::new());
    for (at, c) in one.iter().enumerate() {
        let mut near = at.saturating_sub(range)..other.len().min(at + range + 1);
        if let Some(place) = near.find(|&place| other[place] == *c && !taken[place]) {
            taken[place] = true;
            found.push(c);
        }
    }
    if found.is_empty() {
        return 0.0;
    }
    let in_other = other.iter().zip(&taken).filter(|each| *each.1).map(|each| each.0);
    let moved = found.iter().zip(in_other).filter(|(one, other)| *one != other).count() / 2;
    let share = |count: usize, of: usize| count as f64 / of as f64;
    let count = found.len();
    (share(count, one.len()) + share(count, other.len()) + share(count - moved, count)) / 3.0
}
