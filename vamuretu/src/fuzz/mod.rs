//! Readers of bytes that others wrote, under bytes that are bent: no panic, no hang, and no growth of memory.
//!
//! The readers stand in [`readers`]. Two engines drive them. The first is here, and `cargo test --release -- --ignored bent`
//! runs it: it bends true inputs, by a seed that it prints. `VAMURETU_FUZZ_SECONDS` says how long, 60 by itself, and
//! `VAMURETU_FUZZ_SEED` repeats a run. The second is libFuzzer, which follows what the program does. It wants clang's
//! `libclang_rt.fuzzer` (Debian's libclang-rt-14-dev), and is built in `vamuretu/` by hand:
//!
//!     cov='-Cpasses=sancov-module -Cllvm-args=-sanitizer-coverage-level=4 -Cllvm-args=-sanitizer-coverage-trace-compares'
//!     cov="$cov -Cllvm-args=-sanitizer-coverage-inline-8bit-counters -Cllvm-args=-sanitizer-coverage-pc-table"
//!     here=/usr/lib/llvm-14/lib/clang/14.0.6/lib/linux
//!     RUSTFLAGS="$cov -Ccodegen-units=1 -Clink-arg=$here/libclang_rt.fuzzer-x86_64.a -Clink-arg=-lstdc++" \
//!         cargo build --offline --release --features fuzzing --target x86_64-unknown-linux-gnu
//!     mkdir inputs && VAMURETU_FUZZ_INPUTS=inputs cargo test --offline --release -- --ignored bent
//!     target/x86_64-unknown-linux-gnu/release/vamuretu inputs -max_total_time=3600 -timeout=10 -rss_limit_mb=1024
//!
//! The first byte of an input of libFuzzer is the place of the reader. What it finds it writes to `crash-`, `timeout-` or `oom-`.

mod readers;

use readers::READERS;

/// A reader, with inputs that it takes.
struct Reader {
    name: &'static str,
    inputs: fn() -> Vec<Vec<u8>>,
    read: fn(&[u8]),
}

/// Called by libFuzzer for each input. A panic ends the process.
#[cfg(feature = "fuzzing")]
#[no_mangle]
extern "C" fn LLVMFuzzerTestOneInput(data: *const u8, size: usize) -> i32 {
    // SAFETY: libFuzzer hands so many bytes, which nobody changes during the call.
    let data = if size == 0 { &[][..] } else { unsafe { std::slice::from_raw_parts(data, size) } };
    if let Some((&place, input)) = data.split_first() {
        (READERS[usize::from(place) % READERS.len()].read)(input);
    }
    0
}

#[cfg(test)]
mod tests {
    use std::collections::BTreeMap;
    use std::path::PathBuf;
    use std::sync::{Arc, Mutex};
    use std::time::{Duration, Instant};
    use std::{env, fs, thread};

    use super::*;

    /// How long it takes without a word, and a single input at most.
    const SECONDS: u64 = 60;
    const MOST_ONE: Duration = Duration::from_secs(20);
    /// The most KiB that the memory may grow by.
    const MOST_GROWTH: u64 = 256 << 10;
    /// The longest input.
    const MOST_BYTES: usize = 1 << 16;
    /// What numbers and texts are bent to.
    const NUMBERS: [u64; 9] = [0, 1, 0x7f, 0xff, 0xffff, 0x7fff_ffff, 0xffff_ffff, 1 << 63, u64::MAX];
    const TEXTS: [&str; 16] = [
        "0",
        "-1",
        "4294967296",
        "18446744073709551616",
        "1e999",
        "null",
        "true",
        "\"",
        "\\",
        "\\u0000",
        "\u{202e}",
        "\u{fffd}",
        "\0",
        "\n",
        "[[[[[[[[[[[[[[[[[[[[[[[[[[[[[[[[",
        "{\"a\":{\"a\":{\"a\":",
    ];

    /// Numbers that a seed gives: SplitMix64.
    struct Drawn(u64);

    impl Drawn {
        fn next(&mut self) -> u64 {
            self.0 = self.0.wrapping_add(0x9e37_79b9_7f4a_7c15);
            let mixed = (self.0 ^ (self.0 >> 30)).wrapping_mul(0xbf58_476d_1ce4_e5b9);
            let mixed = (mixed ^ (mixed >> 27)).wrapping_mul(0x94d0_49bb_1331_11eb);
            mixed ^ (mixed >> 31)
        }

        /// A number below this one, or 0.
        fn below(&mut self, end: usize) -> usize {
            (self.next() % (end as u64).max(1)) as usize
        }

        /// Some numbers are short most of the time, and long sometimes.
        fn length(&mut self, most: usize) -> usize {
            let short = self.below(6);
            self.below(most.min(1 << (3 * short)).max(1)) + 1
        }
    }

    /// Bends an input once, by what may be anywhere or is of another input.
    fn bend(drawn: &mut Drawn, input: &mut Vec<u8>, other: &[u8]) {
        let at = drawn.below(input.len() + 1);
        let to = (at + drawn.length(input.len())).min(input.len());
        match drawn.below(9) {
            0 if at < input.len() => input[at] ^= 1 << drawn.below(8),
            1 if at < input.len() => input[at] = drawn.next() as u8,
            2 => drop(input.drain(at..to)),
            3 => input.truncate(at),
            4 => {
                let again = input[at..to].to_vec();
                (0..drawn.length(64)).for_each(|_| drop(input.splice(at..at, again.iter().copied())));
            }
            5 => {
                let bytes = NUMBERS[drawn.below(NUMBERS.len())].to_be_bytes();
                let bytes = &bytes[8 - (1 << drawn.below(4))..];
                input.splice(at..(at + bytes.len()).min(input.len()), bytes.iter().copied());
            }
            6 => drop(input.splice(at..to, TEXTS[drawn.below(TEXTS.len())].bytes())),
            7 => {
                let from = drawn.below(other.len());
                let part = &other[from..(from + drawn.length(other.len())).min(other.len())];
                input.splice(at..to, part.iter().copied());
            }
            _ => drop(input.splice(at..at, (0..drawn.length(64)).map(|_| drawn.next() as u8).collect::<Vec<_>>())),
        }
        input.truncate(MOST_BYTES);
    }

    /// The most memory that the process has had, in KiB.
    fn most_memory() -> u64 {
        let told = fs::read_to_string("/proc/self/status").unwrap_or_default();
        let line = told.lines().find_map(|line| line.strip_prefix("VmHWM:"));
        line.and_then(|line| line.trim().trim_end_matches(" kB").parse().ok()).unwrap_or(0)
    }

    fn number(name: &str) -> Option<u64> {
        env::var(name).ok().and_then(|it| it.parse().ok())
    }

    /// The inputs of a reader, one bent from another for ever, with what is being read for whoever looks on.
    fn drive(reader: &Reader, seed: u64, seconds: f64, now: &Mutex<Option<(Instant, String)>>) -> u64 {
        let (inputs, end) = ((reader.inputs)(), Instant::now() + Duration::from_secs_f64(seconds));
        let mut count = 0;
        while Instant::now() < end {
            let mut drawn = Drawn(seed.wrapping_add(count).wrapping_mul(0x2545_f491_4f6c_dd1d));
            let mut input = inputs[drawn.below(inputs.len())].clone();
            let bends = if count < inputs.len() as u64 { 0 } else { drawn.length(16) };
            (0..bends).for_each(|_| {
                let other = &inputs[drawn.below(inputs.len())];
                bend(&mut drawn, &mut input, other);
            });
            let what = || format!("{}, input {count} of seed {seed}: {}", reader.name, hex::encode(&input));
            *now.lock().expect("no panic") = Some((Instant::now(), what()));
            let read = std::panic::catch_unwind(|| (reader.read)(&input));
            assert!(read.is_ok(), "a panic: {}", what());
            count += 1;
        }
        *now.lock().expect("no panic") = None;
        count
    }

    /// Writes the true inputs, for libFuzzer.
    fn write_inputs(folder: PathBuf) {
        for (place, reader) in READERS.iter().enumerate() {
            for (which, input) in (reader.inputs)().iter().enumerate() {
                let path = folder.join(format!("{}-{which}", reader.name.replace(' ', "-")));
                fs::write(path, [&[place as u8][..], input].concat()).expect("a disk");
            }
        }
    }

    #[test]
    #[ignore = "it takes as long as it is told"]
    fn bent_inputs_harm_no_reader() {
        if let Some(folder) = env::var_os("VAMURETU_FUZZ_INPUTS") {
            return write_inputs(folder.into());
        }
        let seed = number("VAMURETU_FUZZ_SEED").unwrap_or_else(|| crate::clock::now_ms() as u64);
        let seconds = number("VAMURETU_FUZZ_SECONDS").unwrap_or(SECONDS) as f64 / READERS.len() as f64;
        println!("seed {seed}");
        let now = Arc::new(Mutex::new(None::<(Instant, String)>));
        let seen = now.clone();
        thread::spawn(move || loop {
            thread::sleep(MOST_ONE / 10);
            let slow = seen.lock().map(|it| it.clone().filter(|(at, _)| at.elapsed() > MOST_ONE));
            if let Ok(Some((_, what))) = slow {
                eprintln!("more than {MOST_ONE:?}: {what}");
                std::process::abort();
            }
        });
        let mut counts = BTreeMap::new();
        for reader in READERS {
            let before = most_memory();
            counts.insert(reader.name, drive(reader, seed, seconds, &now));
            let grown = most_memory().saturating_sub(before);
            assert!(grown <= MOST_GROWTH, "{}: the memory grew by {grown} KiB", reader.name);
        }
        println!("{} inputs: {counts:?}", counts.values().sum::<u64>());
    }

    #[test]
    fn what_is_drawn_is_the_same_again() {
        let bent = |seed| {
            let (mut drawn, mut input) = (Drawn(seed), b"a true input".to_vec());
            (0..50).for_each(|_| bend(&mut drawn, &mut input, b"another one"));
            input
        };
        assert!(bent(1) == bent(1) && bent(1) != bent(2));
    }
}
