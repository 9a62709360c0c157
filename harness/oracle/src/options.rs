//! The words after a program's name: options, each with a number.

/// The number of each option, in the options' order: the last that it is given, else the one beside its name. Nothing where a word is no
/// option or a number is missing.
pub fn numbers<const N: usize>(mut words: impl Iterator<Item = String>, options: [(&str, u64); N]) -> Option<[u64; N]> {
    let mut numbers = options.map(|(_, number)| number);
    while let Some(word) = words.next() {
        let place = options.iter().position(|(name, _)| *name == word)?;
        numbers[place] = words.next()?.parse().ok()?;
    }
    Some(numbers)
}
