//! Damage to a file: one to three places of it.
use crate::random::Random;

pub fn damage(r: &mut Random, file: &mut Vec<u8>) {
    for _ in 0..1 + r.below(3) {
        if file.is_empty() {
            return;
        }
        let at = r.below(file.len() as u64) as usize;
        match r.below(6) {
            0 => file.truncate(at),
            1 => file[at] ^= 1 << r.below(8),
            2 => file[at] = r.pick(&[0, 1, 2, 7, 255]),
            3 => {
                file.remove(at);
            }
            4 => file.extend(r.pick(&[b"SH", b"SI", b"OR", b"ST", b"XX", b"FN", b"sh"])),
            _ => repeat_part(r, file, at),
        }
    }
}

/// Up to 60 bytes from a place on, a second time somewhere.
fn repeat_part(r: &mut Random, file: &mut Vec<u8>, from: usize) {
    let to = (from + 1 + r.below(60) as usize).min(file.len());
    let part = file[from..to].to_vec();
    let at = r.below(file.len() as u64) as usize;
    file.splice(at..at, part);
}
