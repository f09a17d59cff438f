//! Damage: words or bytes flipped, cut off, left out, put in or exchanged.

use super::EXTREMES;
use super::random::Random;

/// One to three faults in a list of words.
pub fn damage_words(words: &mut Vec<u32>, random: &mut Random) {
    for _ in 0..random.between(1, 3) {
        let place = random.below(words.len() + 1);
        let put_in = match random.below(3) {
            0 => random.word(),
            1 => random.pick(&EXTREMES),
            _ => random.below(4) as u32,
        };
        match random.below(6) {
            0 => words.truncate(place),
            1 => words.insert(place, put_in),
            _ if place == words.len() => words.push(put_in),
            2 => words[place] ^= 1 << random.below(32),
            3 => words[place] = put_in,
            4 => {
                words.remove(place);
            }
            _ => {
                let other = random.below(words.len());
                words.swap(place, other);
            }
        }
    }
}

/// One to three faults in a list of bytes.
pub fn damage_bytes(bytes: &mut Vec<u8>, random: &mut Random) {
    for _ in 0..random.between(1, 3) {
        let place = random.below(bytes.len() + 1);
        // Small bytes are kinds and codes, and so more telling than others.
        let put_in = match random.below(3) {
            0 => random.byte(),
            1 => random.pick(&[0x7f, 0x80, 0xff]),
            _ => random.below(14) as u8,
        };
        match random.below(6) {
            0 => bytes.truncate(place),
            1 => bytes.insert(place, put_in),
            _ if place == bytes.len() => bytes.push(put_in),
            2 => bytes[place] ^= 1 << random.below(8),
            3 => bytes[place] = put_in,
            4 => {
                bytes.remove(place);
            }
            _ => {
                let other = random.below(bytes.len());
                bytes.swap(place, other);
            }
        }
    }
}
