//! What the trials' programs take on their command line.

/// The seed of a run that names none.
const SEED: u64 = 5_150_472;

/// The numbers of `--seed N` and `--rounds N`, each if it is there; nothing if
/// the arguments are not of that form.
pub fn seed_and_rounds() -> Option<(u64, u64)> {
    let (mut seed, mut rounds) = (SEED, 1);
    let mut words = std::env::args().skip(1);
    while let Some(word) = words.next() {
        let number = words.next()?.parse().ok()?;
        match word.as_str() {
            "--seed" => seed = number,
            "--rounds" => rounds = number,
            _ => return None,
        }
    }
    Some((seed, rounds))
}
