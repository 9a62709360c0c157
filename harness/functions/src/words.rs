//! Answers in the oracle's words.
use host::{Cross, Refusal};

pub fn price(answer: Result<Option<Cross>, Refusal>) -> String {
    match answer {
        Ok(Some(c)) => format!("{} {}", c.price, c.volume),
        Ok(None) => "NoCross".to_string(),
        Err(refusal) => format!("refused {}", refusal.number()),
    }
}

/// The lots that are written to an output with room for so many, unless a number refuses them; a refusal must leave it as it was.
pub fn lots(room: usize, allocate: impl FnOnce(&mut [u64]) -> u8) -> String {
    const MARK: u64 = 0x5eed_5eed_5eed_5eed;
    let mut out = vec![MARK; room];
    match allocate(&mut out) {
        0 => out.iter().map(u64::to_string).collect::<Vec<_>>().join(" "),
        refusal if out.iter().all(|&lot| lot == MARK) => format!("refused {refusal}"),
        refusal => format!("refused {refusal}, output touched"),
    }
}
