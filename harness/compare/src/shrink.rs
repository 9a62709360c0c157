//! A shorter file that is still answered differently: whole records are left out as long as that is so.

/// The marks and bodies of a file, and what is left of it where no whole record stands.
pub fn records(file: &[u8]) -> Vec<&[u8]> {
    let mut all = Vec::new();
    let mut rest = file;
    while !rest.is_empty() {
        let width = rest.get(..2).and_then(oracle::width).unwrap_or(rest.len()).min(rest.len());
        let (record, after) = rest.split_at(width);
        all.push(record);
        rest = after;
    }
    all
}

pub fn shrink(file: &[u8], mut differs: impl FnMut(&[u8]) -> bool) -> Vec<u8> {
    let mut kept = records(file);
    let mut chunk = kept.len().div_ceil(2).max(1);
    loop {
        let mut at = 0;
        while at < kept.len() {
            let mut fewer = kept.clone();
            fewer.drain(at..(at + chunk).min(kept.len()));
            if differs(&fewer.concat()) {
                kept = fewer;
            } else {
                at += chunk;
            }
        }
        if chunk == 1 {
            return kept.concat();
        }
        chunk = chunk.div_ceil(2);
    }
}
