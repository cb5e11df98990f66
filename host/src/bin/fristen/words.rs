//! Words as people write them: in any case, with umlauts or without, mistyped.

use std::mem;

/// In small letters, with hyphens, and `ae`, `oe`, `ue` and `ss` for the letters that not every
/// keyboard has.
pub fn normal(word: &str) -> String {
    let mut normal = String::with_capacity(word.len());
    for c in word.to_lowercase().chars() {
        match c {
            'ä' => normal.push_str("ae"),
            'ö' => normal.push_str("oe"),
            'ü' => normal.push_str("ue"),
            'ß' => normal.push_str("ss"),
            '_' => normal.push('-'),
            _ => normal.push(c),
        }
    }
    normal
}

/// Of longer words no more than these characters are compared: no name is as long.
const LONGEST: usize = 64;

/// So many letters of a name say which is meant, and so many names can be read out.
const FEWEST_LETTERS: usize = 3;
const MOST_NAMES: usize = 5;

/// The names that may have been meant: of all the nearest, of which one letter in three may be wrong,
/// else those of the others of which the word is a part, or which are a part of it.
pub fn meant<'a>(
    word: &str,
    all: impl IntoIterator<Item = &'a str>,
    others: impl IntoIterator<Item = &'a str>,
) -> Vec<&'a str> {
    let all: Vec<&str> = all.into_iter().collect();
    let word: String = normal(word).chars().take(LONGEST).collect();
    match nearest(&word, &all) {
        Some(name) => vec![name],
        None => others.into_iter().filter(|name| is_part(&word, name)).take(MOST_NAMES).collect(),
    }
}

fn nearest<'a>(word: &str, names: &[&'a str]) -> Option<&'a str> {
    let word: Vec<char> = word.chars().collect();
    let distance = |name: &str| {
        let name: Vec<char> = normal(name).chars().collect();
        let allowed = (name.len().min(word.len()) / 3).max(1);
        // The difference of the lengths is the least that it can be.
        let may_be_near = name.len().abs_diff(word.len()) <= allowed;
        may_be_near.then(|| distance(&word, &name)).filter(|distance| *distance <= allowed)
    };
    let near = names.iter().filter_map(|name| Some((distance(name)?, *name)));
    near.min_by_key(|(distance, _)| *distance).map(|(_, name)| name)
}

fn is_part(word: &str, name: &str) -> bool {
    let name = normal(name);
    let long = |word: &str| word.chars().count() >= FEWEST_LETTERS;
    (long(word) && name.contains(word)) || (long(&name) && word.contains(&name))
}

/// How many letters are to be put in, taken out, replaced, or swapped with their neighbour.
fn distance(a: &[char], b: &[char]) -> usize {
    // The rows of the letters of `a` up to one, up to the one before it, and up to the one before that.
    let mut row = vec![0; b.len() + 1];
    let mut last: Vec<usize> = (0..=b.len()).collect();
    let mut before_last = row.clone();
    for i in 1..=a.len() {
        row[0] = i;
        for j in 1..=b.len() {
            let replaced = last[j - 1] + usize::from(a[i - 1] != b[j - 1]);
            let mut least = replaced.min(last[j] + 1).min(row[j - 1] + 1);
            if i > 1 && j > 1 && a[i - 1] == b[j - 2] && a[i - 2] == b[j - 1] {
                least = least.min(before_last[j - 2] + 1);
            }
            row[j] = least;
        }
        mem::swap(&mut before_last, &mut last);
        mem::swap(&mut last, &mut row);
    }
    last[b.len()]
}

#[cfg(test)]
mod tests {
    use super::*;

    #[test]
    fn words_are_compared_as_people_write_them() {
        assert_eq!(normal("Nächster_Werktag"), "naechster-werktag");
        assert_eq!(normal("PRÜFEN"), "pruefen");
    }

    #[test]
    fn what_was_meant_is_near() {
        let names = ["tag", "add-werktage", "sub-werktage", "span"];
        let one = |word: &str| meant(word, names, []);
        for word in ["add-wertkage", "adwerktage", "ADD_WERKTAG"] {
            assert_eq!(one(word), ["add-werktage"], "{word}");
        }
        assert_eq!(one("tga"), ["tag"]);
        assert_eq!(one("spann"), ["span"]);
        for word in ["gestern", "", "w", "we", &"x".repeat(1_000_000)] {
            assert!(one(word).is_empty(), "{word}");
        }
    }

    #[test]
    fn what_was_meant_may_be_a_part() {
        let names = ["aperak-strom", "aperak-gas", "aperak-gas-folgeprozess", "contrl"];
        let meant = |word| meant(word, [], names);
        assert_eq!(meant("APERAK"), names[..3]);
        assert_eq!(meant("Gas"), names[1..3]);
        assert_eq!(meant("contrl-due"), names[3..]);
        assert!(meant("ga").is_empty());
        assert_eq!(super::meant("rak", [], ["aperak"; 9]).len(), MOST_NAMES);
    }
}
