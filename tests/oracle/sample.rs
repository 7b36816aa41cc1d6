//! The Rust's answers as a list for the repository. `sample.sh` has the format.
use rust_aes::{FIPS_KEYS, Random, Width, check_value, hex, words};

/// Records of one width and key length: under made schedules with kind's letter, under random ones in capitals.
fn answers<W: Width>(random: &mut Random, kind: char, key_len: usize) {
    for i in 0..8 {
        let (mut key, mut schedule) = (vec![0; key_len], vec![W::low(0); words(key_len)]);
        let (mut input, mut output) = (vec![0; W::BATCH], [vec![0; W::BATCH], vec![0; W::BATCH]]);
        random.fill(&mut input);
        let made = i < 5;
        if made {
            match i {
                0 => {}                                            // the key of zeros
                1 => key.copy_from_slice(FIPS_KEYS[key_len / 32]), // Appendix A's
                _ => random.fill(&mut key),
            }
            W::expand(&key, &mut schedule);
        } else {
            random.fill(&mut schedule);
        }
        for (direction, to) in output.iter_mut().enumerate() {
            W::crypt(direction as u32, &schedule, &input, to);
        }
        let [encrypted, decrypted] = output.map(|o| hex(&o));
        let head = if made { format!("{kind} {}", hex(&key)) } else { format!("{}", kind.to_ascii_uppercase()) };
        println!("{head} {} {} {encrypted} {decrypted} {}", hex(&schedule), hex(&input), hex(&check_value(&schedule)));
    }
}

fn main() {
    let random = &mut Random(197);
    answers::<u32>(random, 'a', 16);
    answers::<u32>(random, 'b', 32);
    answers::<u64>(random, 'c', 16);
    answers::<u64>(random, 'd', 32);
}
