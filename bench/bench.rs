//! Ours, the Rust and (under `--cfg bearssl` and `openssl`) BearSSL and OpenSSL in one process on the same inputs:
//! bench RUNS. It prints docs/SPEED.md's table.
//!
//! 64-bit words, 4,096 blocks a run, the key expanded before; the contestants take turns, and the best of all runs
//! counts. Ours ciphers batch by batch, and in other rows all in one call; the Rust and BearSSL take a batch at a time
//! in both, OpenSSL all. A run of expansion expands 1,024 keys. Before any clock starts, all must give the same bytes.
use rust_aes::{Random, Width, check_value, words};
use std::hint::black_box;
use std::time::Instant;

const BYTES: usize = 16 * 4096; // the most that a call of ours takes
const BATCH: usize = 64;
const KEYS: usize = 1024;

unsafe extern "C" {
    fn locker_aes_expand32(k: *const u8, kn: usize, s: *mut u32, sn: usize) -> u32;
    fn locker_aes_expand64(k: *const u8, kn: usize, s: *mut u64, sn: usize) -> u32;
    fn locker_aes_encrypt32(s: *const u32, sn: usize, i: *const u8, n: usize, o: *mut u8, on: usize) -> u32;
    fn locker_aes_encrypt64(s: *const u64, sn: usize, i: *const u8, n: usize, o: *mut u8, on: usize) -> u32;
    fn locker_aes_decrypt32(s: *const u32, sn: usize, i: *const u8, n: usize, o: *mut u8, on: usize) -> u32;
    fn locker_aes_decrypt64(s: *const u64, sn: usize, i: *const u8, n: usize, o: *mut u8, on: usize) -> u32;
    fn locker_aes_check64(s: *const u64, sn: usize, o: *mut u8, on: usize) -> u32;
    fn locker_aes(d: u32, k: *const u8, kn: usize, i: *const u8, n: usize, o: *mut u8, on: usize) -> u32;
    #[cfg(bearssl)]
    fn bear_expand(k: *const u8, kn: usize, s: *mut u64);
    #[cfg(bearssl)]
    fn bear_crypt(direction: u32, s: *const u64, sn: usize, i: *const u8, o: *mut u8);
    #[cfg(openssl)]
    fn openssl_expand(instructions: i32, k: *const u8, kn: usize);
    #[cfg(openssl)]
    fn openssl_crypt(instructions: i32, direction: u32, i: *const u8, n: usize, o: *mut u8);
}

type ExpandCall<W> = unsafe extern "C" fn(*const u8, usize, *mut W, usize) -> u32;
type CryptCall<W> = unsafe extern "C" fn(*const W, usize, *const u8, usize, *mut u8, usize) -> u32;

/// Our calls at a width; encryption and decryption by direction.
trait Ours: Width {
    const EXPAND: ExpandCall<Self>;
    const CRYPT: [CryptCall<Self>; 2];
}
impl Ours for u32 {
    const EXPAND: ExpandCall<u32> = locker_aes_expand32;
    const CRYPT: [CryptCall<u32>; 2] = [locker_aes_encrypt32, locker_aes_decrypt32];
}
impl Ours for u64 {
    const EXPAND: ExpandCall<u64> = locker_aes_expand64;
    const CRYPT: [CryptCall<u64>; 2] = [locker_aes_encrypt64, locker_aes_decrypt64];
}

/// All of the input to the output, in a direction under a schedule (or, at the door, a key).
type Crypt<W> = fn(u32, &[W], &[u8], &mut [u8]);

/// Input and output in pieces of N bytes: a number that the compiler knows costs nothing at each call.
fn pieces<'a, const N: usize>(input: &'a [u8], output: &'a mut [u8]) -> impl Iterator<Item = (&'a [u8], &'a mut [u8])> {
    assert!(input.len() % N == 0 && output.len() == input.len());
    input.chunks_exact(N).zip(output.chunks_exact_mut(N))
}

fn our_expand<W: Ours>(key: &[u8], schedule: &mut [W]) {
    assert_eq!(unsafe { W::EXPAND(key.as_ptr(), key.len(), schedule.as_mut_ptr(), schedule.len()) }, 0);
}

/// Ours, in calls of N bytes.
fn our_crypt<W: Ours, const N: usize>(direction: u32, schedule: &[W], input: &[u8], output: &mut [u8]) {
    let call = W::CRYPT[direction as usize];
    for (i, o) in pieces::<N>(input, output) {
        let answer = unsafe { call(schedule.as_ptr(), schedule.len(), i.as_ptr(), N, o.as_mut_ptr(), N) };
        assert_eq!(answer, 0);
    }
}

/// Ours through the door, in calls of N bytes.
fn our_door<const N: usize>(direction: u32, key: &[u8], input: &[u8], output: &mut [u8]) {
    for (i, o) in pieces::<N>(input, output) {
        let answer = unsafe { locker_aes(direction, key.as_ptr(), key.len(), i.as_ptr(), N, o.as_mut_ptr(), N) };
        assert_eq!(answer, 0);
    }
}

/// The Rust, in its batches of N bytes.
fn rust_crypt<W: Width, const N: usize>(direction: u32, schedule: &[W], input: &[u8], output: &mut [u8]) {
    match direction {
        0 => pieces::<N>(input, output).for_each(|(i, o)| W::crypt(0, schedule, i, o)),
        _ => pieces::<N>(input, output).for_each(|(i, o)| W::crypt(1, schedule, i, o)),
    }
}

/// A contestant, with schedules of its own.
struct Contestant {
    name: &'static str,
    expand: fn(&[u8], &mut [u64]),
    crypt: Crypt<u64>,
    /// All in one call, where `crypt` makes many and its calls take that.
    whole: Option<Crypt<u64>>,
}

const CONTESTANTS: &[Contestant] = &[
    Contestant { name: "Rust", expand: u64::expand, crypt: rust_crypt::<u64, BATCH>, whole: None },
    Contestant {
        name: "ours",
        expand: our_expand,
        crypt: our_crypt::<u64, BATCH>,
        whole: Some(our_crypt::<u64, BYTES>),
    },
    #[cfg(bearssl)]
    Contestant {
        name: "BearSSL",
        expand: |key, schedule| unsafe { bear_expand(key.as_ptr(), key.len(), schedule.as_mut_ptr()) },
        crypt: |direction, schedule, input, output| {
            for (i, o) in pieces::<BATCH>(input, output) {
                unsafe { bear_crypt(direction, schedule.as_ptr(), schedule.len(), i.as_ptr(), o.as_mut_ptr()) }
            }
        },
        whole: None,
    },
    // These keep their schedules to themselves.
    #[cfg(openssl)]
    Contestant {
        name: "OpenSSL, no AES instructions",
        expand: |key, _| unsafe { openssl_expand(0, key.as_ptr(), key.len()) },
        crypt: |direction, _, input, output| unsafe {
            openssl_crypt(0, direction, input.as_ptr(), input.len(), output.as_mut_ptr())
        },
        whole: None,
    },
    #[cfg(openssl)]
    Contestant {
        name: WITH_INSTRUCTIONS,
        expand: |key, _| unsafe { openssl_expand(1, key.as_ptr(), key.len()) },
        crypt: |direction, _, input, output| unsafe {
            openssl_crypt(1, direction, input.as_ptr(), input.len(), output.as_mut_ptr())
        },
        whole: None,
    },
];
const WITH_INSTRUCTIONS: &str = "OpenSSL, AES instructions";
const DIRECTIONS: [(u32, &str); 2] = [(0, "encrypt"), (1, "decrypt")];

/// The best time of one run of each, in ns, taken in turns.
fn best<C>(runs: u32, contestants: &[C], mut run: impl FnMut(usize, &C)) -> Vec<f64> {
    let mut best = vec![f64::MAX; contestants.len()];
    for _ in 0..runs {
        for (n, (c, best)) in contestants.iter().zip(&mut best).enumerate() {
            let start = Instant::now();
            run(n, c);
            *best = best.min(start.elapsed().as_nanos() as f64);
        }
    }
    best
}

/// The best time of each under its own schedule, after all have written the same bytes over zeros.
fn best_crypt<W>(runs: u32, direction: u32, each: &[(Crypt<W>, &[W])], input: &[u8], output: &mut [u8]) -> Vec<f64> {
    let answers = each.iter().map(|(crypt, schedule)| {
        output.fill(0);
        crypt(direction, schedule, input, output);
        output.to_vec()
    });
    let answers: Vec<_> = answers.collect();
    assert!(answers.iter().all(|a| *a == answers[0]), "the answers differ");
    best(runs, each, |_, (crypt, schedule)| crypt(direction, schedule, black_box(input), black_box(&mut *output)))
}

fn row(name: &str, unit: &str, count: usize, best: Vec<f64>) {
    print!("| {name} | {unit} |");
    best.iter().for_each(|ns| print!(" {:.2} |", ns / count as f64));
    println!(" {:.3} |", best[1] / best[0]);
}

fn main() {
    let runs: u32 = std::env::args().nth(1).map_or(300, |a| a.parse().expect("RUNS, decimal"));
    let mut random = Random(1);
    let (mut input, mut output, mut keys) = (vec![0u8; BYTES], vec![0u8; BYTES], vec![0u8; 32 * KEYS]);
    random.fill(&mut input);
    random.fill(&mut keys);

    let has_instructions = is_x86_feature_detected!("aes");
    let contestants: Vec<_> = CONTESTANTS.iter().filter(|c| has_instructions || c.name != WITH_INSTRUCTIONS).collect();
    print!("| | for a |");
    contestants.iter().for_each(|c| print!(" {} |", c.name));
    println!(" ours/Rust |\n|---|---|{}---|", "---|".repeat(contestants.len()));
    let mut beside = vec![];
    for key_len in [16, 32] {
        let (name, key) = (format!("AES-{}", 8 * key_len), &keys[..key_len]);
        let mut schedules = vec![vec![0u64; words(key_len)]; contestants.len()];
        contestants.iter().zip(&mut schedules).for_each(|(c, s)| (c.expand)(key, s));
        assert!(schedules[0] == schedules[1], "the schedules differ");

        for (unit, in_one_call) in [("block", false), ("block, 4,096 in a call", true)] {
            let crypt = |c: &Contestant| c.whole.filter(|_| in_one_call).unwrap_or(c.crypt);
            let each: Vec<_> = contestants.iter().zip(&schedules).map(|(c, s)| (crypt(c), &s[..])).collect();
            for (direction, what) in DIRECTIONS {
                let best = best_crypt(runs, direction, &each, &input, &mut output);
                row(&format!("{name} {what}"), unit, BYTES / 16, best);
            }
        }
        let mut schedule = vec![0u64; words(key_len)];
        let best_key = best(runs, &contestants, |_, c| {
            keys.chunks_exact(32).for_each(|k| (c.expand)(black_box(&k[..key_len]), black_box(&mut schedule)));
        });
        row(&format!("{name} expand"), "key", KEYS, best_key);

        // The door, which expands at each call of one batch, beside the same with a schedule made once; then all in one
        // call of it, beside one expansion and one call.
        let ours = &schedules[1];
        for (direction, door) in [(1, our_door::<BATCH> as Crypt<u8>), (0, our_door::<BYTES>)] {
            let mut by_door = vec![0; BYTES];
            door(direction, key, &input, &mut by_door);
            rust_crypt::<u64, BATCH>(direction, &schedules[0], &input, &mut output);
            assert!(by_door == output, "the door's answers differ");
        }
        let door = best(runs, &[false, true], |_, door| match door {
            false => our_crypt::<u64, BATCH>(1, ours, black_box(&input), black_box(&mut output)),
            true => our_door::<BATCH>(1, key, black_box(&input), black_box(&mut output)),
        });
        let [once, each] = [door[0], door[1]].map(|ns| ns / (BYTES / 16) as f64);
        beside.push(format!("{name}: decrypting by the door {each:.2} ns a block, by a schedule made once {once:.2}"));
        let door = best(runs, &[false, true], |_, door| match door {
            false => {
                our_expand(black_box(key), &mut schedule);
                our_crypt::<u64, BYTES>(0, &schedule, black_box(&input), black_box(&mut output));
            }
            true => our_door::<BYTES>(0, black_box(key), black_box(&input), black_box(&mut output)),
        });
        beside.push(format!(
            "{name}: encrypting {BYTES} bytes by the door {:.0} ns, by expanding and one call {:.0}, {:.3} of it",
            door[1],
            door[0],
            door[1] / door[0]
        ));

        // 32-bit words: the Rust in its batches of two blocks, beside ours so and in one call.
        let mut narrow = vec![0u32; words(key_len)];
        our_expand(key, &mut narrow);
        for (direction, what) in DIRECTIONS {
            let each: [Crypt<u32>; 3] = [rust_crypt::<u32, 32>, our_crypt::<u32, 32>, our_crypt::<u32, BYTES>];
            let best = best_crypt(runs, direction, &each.map(|crypt| (crypt, &narrow[..])), &input, &mut output);
            let [rust, batch, call] = [best[0], best[1], best[2]].map(|ns| ns / (BYTES / 16) as f64);
            beside.push(format!(
                "{name}, 32-bit words: {what} {batch:.2} ns a block, {call:.2} where 4,096 are in a call, the Rust {rust:.2}: \
                 {:.3} and {:.3} of it",
                batch / rust,
                call / rust
            ));
        }

        // A key check value, beside the two encryptions of a batch that it is made of, the second of what the first gave.
        let (s, n, mut value) = (ours.as_ptr(), ours.len(), [0u8; 3]);
        let check = best(runs, &[false, true], |_, check| {
            for _ in 0..KEYS {
                match check {
                    false => {
                        our_crypt::<u64, BATCH>(0, ours, black_box(&input[..BATCH]), black_box(&mut output[..BATCH]));
                        our_crypt::<u64, BATCH>(0, ours, black_box(&output[..BATCH]), black_box(&mut input[..BATCH]));
                    }
                    true => assert_eq!(unsafe { locker_aes_check64(s, n, black_box(&mut value).as_mut_ptr(), 3) }, 0),
                }
            }
        });
        assert_eq!(value, check_value(&schedules[0]), "the check values differ");
        let [two, one] = [check[0], check[1]].map(|ns| ns / KEYS as f64);
        beside.push(format!(
            "{name}: a key check value {one:.1} ns, two encryptions of a batch {two:.1}, {:.3} of it",
            one / two
        ));
    }
    beside.iter().for_each(|line| println!("{line}"));
    println!("ok bench: {runs} interleaved runs of each, the same bytes from all {}", contestants.len());
}
