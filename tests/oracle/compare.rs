//! Ours, linked from the static library, against the Rust: compare SEED COUNT.
//!
//! Every call is judged whole: its number, every element of the buffer that it may write, its inputs, and guard
//! elements around each buffer. The refusals are not the Rust's; they are stated here from docs/SCOPE.md's table. The
//! Rust takes one full batch: many blocks are given to it batch by batch. It takes a key of zeros: ours must refuse it,
//! and the other calls take the Rust's schedule of it. (The words of that schedule are compared by crates/replay_main,
//! below the public call.)
use rust_aes::{Element, FIPS_KEYS, Random, SIZES, Width, check_value, hex, words};

type Expand<W> = unsafe extern "C" fn(*const u8, usize, *mut W, usize) -> u32;
type Crypt<W> = unsafe extern "C" fn(*const W, usize, *const u8, usize, *mut u8, usize) -> u32;
type Check<W> = unsafe extern "C" fn(*const W, usize, *mut u8, usize) -> u32;

/// Our calls at one width.
trait Ours: Width {
    const EXPAND: Expand<Self>;
    const CRYPT: [Crypt<Self>; 2];
    const CHECK: Check<Self>;
}

macro_rules! ours {
    ($word:ident: $expand:ident $encrypt:ident $decrypt:ident $check:ident) => {
        unsafe extern "C" {
            fn $expand(k: *const u8, kn: usize, s: *mut $word, sn: usize) -> u32;
            fn $encrypt(s: *const $word, sn: usize, i: *const u8, n: usize, o: *mut u8, on: usize) -> u32;
            fn $decrypt(s: *const $word, sn: usize, i: *const u8, n: usize, o: *mut u8, on: usize) -> u32;
            fn $check(s: *const $word, sn: usize, o: *mut u8, on: usize) -> u32;
        }
        impl Ours for $word {
            const EXPAND: Expand<Self> = $expand;
            const CRYPT: [Crypt<Self>; 2] = [$encrypt, $decrypt];
            const CHECK: Check<Self> = $check;
        }
    };
}
ours!(u32: locker_aes_expand32 locker_aes_encrypt32 locker_aes_decrypt32 locker_aes_check32);
ours!(u64: locker_aes_expand64 locker_aes_encrypt64 locker_aes_decrypt64 locker_aes_check64);

unsafe extern "C" {
    fn locker_aes(d: u32, k: *const u8, kn: usize, i: *const u8, n: usize, o: *mut u8, on: usize) -> u32;
}

/// What a call answers, and what the buffer that it may write then holds.
type Outcome<T> = (u32, Vec<T>);

/// The first number whose test applies; else the buffer as `write` leaves it.
fn outcome<T: Copy>(refusals: &[(u32, bool)], buffer: &[T], write: impl FnOnce(&mut [T])) -> Outcome<T> {
    let mut after = buffer.to_vec();
    match refusals.iter().find(|(_, applies)| *applies) {
        Some((number, _)) => (*number, after),
        None => {
            write(&mut after);
            (0, after)
        }
    }
}

fn bad_key(key: &[u8]) -> bool {
    SIZES.iter().all(|size| size.0 != key.len())
}

fn zero_key(key: &[u8]) -> bool {
    key.iter().all(|byte| *byte == 0)
}

fn bad_schedule<W>(schedule: &[W]) -> bool {
    SIZES.iter().all(|size| size.1 != schedule.len())
}

/// The most bytes that one call takes.
const MOST: usize = 65_536;

fn bad_input(input: &[u8]) -> bool {
    input.is_empty() || input.len() > MOST || input.len() % 16 != 0
}

/// The Rust batch by batch. Zero blocks fill up the last one, and what becomes of them is cut off.
fn by_batches<W: Width>(direction: u32, schedule: &[W], input: &[u8], output: &mut [u8]) {
    for (from, to) in input.chunks(W::BATCH).zip(output.chunks_mut(W::BATCH)) {
        let (mut batch, mut done) = ([0; u64::BATCH], [0; u64::BATCH]); // room for either width's
        batch[..from.len()].copy_from_slice(from);
        W::crypt(direction, schedule, &batch[..W::BATCH], &mut done[..W::BATCH]);
        to.copy_from_slice(&done[..to.len()]);
    }
}

fn expanded<W: Width>(key: &[u8], schedule: &[W]) -> Outcome<W> {
    let refusals = [(1, bad_key(key)), (6, zero_key(key)), (2, schedule.len() != words(key.len()))];
    outcome(&refusals, schedule, |to| W::expand(key, to))
}

fn crypted<W: Width>(direction: u32, schedule: &[W], input: &[u8], output: &[u8]) -> Outcome<u8> {
    let refusals = [(2, bad_schedule(schedule)), (3, bad_input(input)), (4, output.len() != input.len())];
    outcome(&refusals, output, |to| by_batches(direction, schedule, input, to))
}

fn checked<W: Width>(schedule: &[W], output: &[u8]) -> Outcome<u8> {
    let refusals = [(2, bad_schedule(schedule)), (4, output.len() != 3)];
    outcome(&refusals, output, |to| to.copy_from_slice(&check_value(schedule)))
}

fn by_door(direction: u32, key: &[u8], input: &[u8], output: &[u8]) -> Outcome<u8> {
    let lengths = [(3, bad_input(input)), (4, output.len() != input.len())];
    let refusals = [(1, bad_key(key)), (6, zero_key(key)), lengths[0], lengths[1], (5, direction > 1)];
    outcome(&refusals, output, |to| {
        let mut schedule = vec![0u64; words(key.len())];
        u64::expand(key, &mut schedule);
        by_batches(direction, &schedule, input, to);
    })
}

/// A buffer between guard elements.
struct Lent<T>(Vec<T>);
const GUARD: usize = 64; // room for a whole batch, where only a part of one was to be written

impl<T: Element> Lent<T> {
    fn guard(i: usize) -> T {
        T::low(0xc3a5_5a3c_0ff0_9669u64.rotate_left(i as u32))
    }
    fn new(held: &[T]) -> Self {
        Lent((0..GUARD).map(Self::guard).chain(held.iter().copied()).chain((0..GUARD).map(Self::guard)).collect())
    }
    fn len(&self) -> usize {
        self.0.len() - 2 * GUARD
    }
    fn at(&mut self) -> *mut T {
        self.0[GUARD..].as_mut_ptr()
    }
    fn holds(&self, held: &[T]) -> bool {
        self.0 == Self::new(held).0
    }
}

/// Lengths on both sides of every limit of docs/SCOPE.md; around the most bytes apart, for calls of these take long.
const LENGTHS: [usize; 26] =
    [0, 1, 2, 3, 4, 8, 15, 16, 17, 24, 31, 32, 33, 47, 48, 63, 64, 65, 87, 88, 89, 104, 119, 120, 121, 128];
const MOST_LENGTHS: [usize; 7] = [MOST - 17, MOST - 16, MOST - 1, MOST, MOST + 1, MOST + 16, MOST + 17];

/// What was compared: of calls that took blocks, those with a part of a batch, and those of the most bytes.
#[derive(Default)]
struct Compared {
    batches: u64,
    calls: u64,
    parts: u64,
    most: u64,
    schedules: u64,
    checks: u64,
    refusals: u64,
    zeros: u64,
}

struct Run {
    random: Random,
    compared: Compared,
}

impl Run {
    fn some<T: Element>(&mut self, n: usize) -> Vec<T> {
        let mut some = vec![T::low(0); n];
        self.random.fill(&mut some);
        some
    }

    fn below(&mut self, n: usize) -> usize {
        (self.random.next() % n as u64) as usize
    }

    fn odd<T: Element>(&mut self) -> Vec<T> {
        let n = LENGTHS[self.below(LENGTHS.len())];
        self.some(n)
    }

    /// Bytes that are taken: mostly a few blocks, at times any number of them, and the most.
    fn length(&mut self) -> usize {
        match self.below(4096) {
            0 => MOST,
            1 => 16 * (1 + self.below(MOST / 16)),
            2..64 => 16 * (1 + self.below(64)),
            _ => 16 * (1 + self.below(8)),
        }
    }

    /// An input and an output: right ones.
    fn blocks(&mut self) -> (Vec<u8>, Vec<u8>) {
        let n = self.length();
        (self.some(n), self.some(n))
    }

    /// The same, right or not: each of any length; or the output's beside the input's; or both around the most.
    fn odd_blocks(&mut self) -> (Vec<u8>, Vec<u8>) {
        match self.below(2048) {
            0 => {
                let [n, m] = [0; 2].map(|_| MOST_LENGTHS[self.below(MOST_LENGTHS.len())]);
                (self.some(n), self.some(m))
            }
            1..512 => {
                let n = self.length();
                let beside = [n - 16, n - 1, n + 1, n + 16][self.below(4)];
                (self.some(n), self.some(beside))
            }
            _ => (self.odd(), self.odd()),
        }
    }

    /// Holds an answer, the written buffer and whether the inputs were kept to what was expected; `said` names the
    /// call and what it was given, and is asked only when they differ.
    fn judge<T: Element>(
        &mut self,
        got: (u32, &Lent<T>, bool),
        expected: Outcome<T>,
        said: impl FnOnce() -> (String, Vec<String>),
    ) {
        let (answer, lent, kept) = got;
        self.compared.refusals += u64::from(expected.0 != 0);
        self.compared.zeros += u64::from(expected.0 == 6);
        if answer == expected.0 && kept && lent.holds(&expected.1) {
            return;
        }
        let (call, given) = said();
        println!("FAILED: {call}");
        given.iter().for_each(|i| println!("  given    {i}"));
        println!("  expected {} {}", expected.0, hex(&expected.1));
        println!("  answered {answer} {}", hex(&lent.0[GUARD..GUARD + lent.len()]));
        if let Some(at) = expected.1.iter().zip(&lent.0[GUARD..]).position(|(right, is)| right != is) {
            println!("  which differ first at element {at} of {}", lent.len());
        }
        let guards = Lent::<T>::new(&[]).0;
        let all_guards = lent.0.starts_with(&guards[..GUARD]) && lent.0.ends_with(&guards[GUARD..]);
        println!("  inputs unchanged: {kept}; guards of the written buffer unchanged: {all_guards}");
        std::process::exit(1);
    }

    /// Of an answered call, its blocks in batches of so many bytes.
    fn count(&mut self, answer: u32, input: &[u8], batch: usize) {
        if answer == 0 {
            self.compared.batches += input.len().div_ceil(batch) as u64;
            self.compared.calls += 1;
            self.compared.parts += u64::from(input.len() % batch != 0);
            self.compared.most += u64::from(input.len() == MOST);
        }
    }

    fn expand<W: Ours>(&mut self, key: &[u8], schedule: &[W]) {
        let (mut k, mut s) = (Lent::new(key), Lent::new(schedule));
        let answer = unsafe { W::EXPAND(k.at(), k.len(), s.at(), s.len()) };
        let said = || (format!("expand, {} bits", 8 * size_of::<W>()), vec![hex(key)]);
        let expected = expanded(key, schedule);
        self.compared.schedules += u64::from(expected.0 == 0);
        self.judge((answer, &s, k.holds(key)), expected, said);
    }

    fn crypt<W: Ours>(&mut self, direction: u32, schedule: &[W], input: &[u8], output: &[u8]) {
        let (mut s, mut i, mut o) = (Lent::new(schedule), Lent::new(input), Lent::new(output));
        let answer = unsafe { W::CRYPT[direction as usize](s.at(), s.len(), i.at(), i.len(), o.at(), o.len()) };
        let got = (answer, &o, s.holds(schedule) && i.holds(input));
        let call = || format!("crypt in direction {direction}, {} bits", 8 * size_of::<W>());
        let said = || (call(), vec![hex(schedule), hex(input)]);
        let expected = crypted(direction, schedule, input, output);
        self.count(expected.0, input, W::BATCH);
        self.judge(got, expected, said);
    }

    fn check<W: Ours>(&mut self, schedule: &[W], output: &[u8]) {
        let (mut s, mut o) = (Lent::new(schedule), Lent::new(output));
        let answer = unsafe { W::CHECK(s.at(), s.len(), o.at(), o.len()) };
        let said = || (format!("check, {} bits", 8 * size_of::<W>()), vec![hex(schedule)]);
        let expected = checked(schedule, output);
        self.compared.checks += u64::from(expected.0 == 0);
        self.judge((answer, &o, s.holds(schedule)), expected, said);
    }

    fn door(&mut self, direction: u32, key: &[u8], input: &[u8], output: &[u8]) {
        let (mut k, mut i, mut o) = (Lent::new(key), Lent::new(input), Lent::new(output));
        let answer = unsafe { locker_aes(direction, k.at(), k.len(), i.at(), i.len(), o.at(), o.len()) };
        let got = (answer, &o, k.holds(key) && i.holds(input));
        let said = || (format!("door in direction {direction}"), vec![hex(key), hex(input)]);
        let expected = by_door(direction, key, input, output);
        self.count(expected.0, input, u64::BATCH);
        self.judge(got, expected, said);
    }

    /// One key and one schedule at one width: good calls, and then calls with any of the lengths.
    fn width<W: Ours>(&mut self, key: &[u8], any: &[W]) {
        let before = self.some(words(key.len()));
        self.expand::<W>(key, &before);
        let mut made = before;
        W::expand(key, &mut made);
        for schedule in [&made[..], any] {
            for direction in 0..2 {
                let (input, output) = self.blocks();
                self.crypt(direction, schedule, &input, &output);
            }
            let output = self.some::<u8>(3);
            self.check(schedule, &output);
        }

        let (odd_key, odd_schedule) = (self.odd::<u8>(), self.odd::<W>());
        self.expand(&odd_key, &odd_schedule);
        self.expand(key, &odd_schedule);
        for schedule in [any, &odd_schedule] {
            let (input, output) = self.odd_blocks();
            let direction = self.below(2) as u32;
            self.crypt(direction, schedule, &input, &output);
            self.check(schedule, &output);
        }
    }

    /// Both directions and the check value under one schedule.
    fn under<W: Ours>(&mut self, schedule: &[W], input: &[u8]) {
        for direction in 0..2 {
            let output = self.some::<u8>(input.len());
            self.crypt(direction, schedule, input, &output);
        }
        let output = self.some::<u8>(3);
        self.check(schedule, &output);
    }

    /// Schedules of n words, and inputs of a batch and a block: every bit set alone and clear alone, and every slot
    /// filled alone.
    fn patterns<W: Ours>(&mut self, n: usize) {
        let (bits, slots, bytes) = (8 * size_of::<W>(), W::BATCH / 16, W::BATCH + 16);
        for all in [0, u64::MAX] {
            for bit in 0..n * bits {
                let mut schedule = vec![W::low(all); n];
                schedule[bit / bits] = W::low(all ^ 1 << (bit % bits));
                let input = self.some(bytes);
                self.under(&schedule, &input);
            }
            let schedule = self.some::<W>(n);
            for bit in 0..8 * bytes {
                let mut input = vec![all as u8; bytes];
                input[bit / 8] ^= 1 << (bit % 8);
                self.under(&schedule, &input);
            }
            for slot in (0..slots).cycle().take(16 * slots) {
                let others = (0..64).filter(|bit| bit % slots != slot).fold(0, |mask, bit| mask | 1u64 << bit);
                let word = |random: &mut Random| W::low(random.next() & !others | all & others);
                let schedule: Vec<W> = (0..n).map(|_| word(&mut self.random)).collect();
                let input = self.some(bytes);
                self.under(&schedule, &input);
            }
        }
    }

    /// One key: both widths, and the door.
    fn key(&mut self, key: &[u8], any32: &[u32], any64: &[u64]) {
        self.width(key, any32);
        self.width(key, any64);
        for direction in [0, 1, 2, self.random.next() as u32] {
            let (input, output) = self.blocks();
            self.door(direction, key, &input, &output);
            let (odd_key, (odd_input, odd_output)) = (self.odd::<u8>(), self.odd_blocks());
            self.door(direction, &odd_key, &input, &output);
            self.door(direction, key, &odd_input, &odd_output);
            self.door(direction, &odd_key, &odd_input, &odd_output);
        }
    }
}

/// All bytes alike, counting bytes (FIPS-197's Appendix C), Appendix A's key, and each single bit.
fn structured(len: usize) -> Vec<Vec<u8>> {
    let mut keys: Vec<Vec<u8>> = [0x00, 0xff, 0x63, 0x80].iter().map(|b| vec![*b; len]).collect();
    keys.push((0..len as u8).collect());
    keys.push(FIPS_KEYS[len / 32].to_vec());
    for bit in 0..8 * len {
        keys.push((0..len).map(|i| if i == bit / 8 { 1 << (bit % 8) } else { 0 }).collect());
    }
    keys
}

fn main() {
    let args: Vec<u64> = std::env::args().skip(1).map(|a| a.parse().expect("SEED COUNT, decimal")).collect();
    let (seed, count) = (args[0], args[1]);
    println!(
        "oracle: seed {seed}, at least {count} batches under random keys (again: tests/oracle/run.sh {count} {seed})"
    );
    let mut run = Run { random: Random(seed), compared: Compared::default() };
    for (len, n) in SIZES {
        for (i, key) in structured(len).iter().enumerate() {
            let same = [0, u64::MAX, 0x6363_6363_6363_6363][i % 3]; // schedules of equal words
            run.key(key, &vec![same as u32; n], &vec![same; n]);
        }
        run.patterns::<u32>(n);
        run.patterns::<u64>(n);
    }
    let least = run.compared.batches + count;
    while run.compared.batches < least {
        for (len, n) in SIZES {
            let key = run.some::<u8>(len);
            let (any32, any64) = (run.some(n), run.some(n));
            run.key(&key, &any32, &any64);
        }
    }
    let all = run.compared;
    assert!(all.zeros > 0, "no key of zeros was tried");
    assert!(all.parts > 0 && all.most > 0, "no part of a batch was tried, or never the most bytes");
    println!(
        "ok oracle: {} batches in {} calls, {} of these with a part of a batch and {} of {MOST} bytes, {} schedules, \
         {} check values and {} refusals, {} of a key of zeros, as the Rust and docs/SCOPE.md have them",
        all.batches, all.calls, all.parts, all.most, all.schedules, all.checks, all.refusals, all.zeros
    );
}
