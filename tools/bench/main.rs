//! Times the box's functions, from its static library, against plain Rust on the same inputs, and prints the ratios.
//! The results of both are compared. `run` beside this file builds and starts it.

mod plain;

use std::hint::black_box;
use std::time::Instant;

type Bytes32 = [u8; 32];

// Nothing checks these against the box's source, crates/exports_c/src/lib.rt: a slice is passed as its start and its length.
unsafe extern "C" {
    fn release_box_hmac_sha256(key: &Bytes32, message: *const u8, length: usize, out: &mut Bytes32) -> u8;
    fn release_box_keyed_blake2s(key: &Bytes32, message: *const u8, length: usize, out: &mut Bytes32) -> u8;
    fn release_box_chacha20_encrypt(key: &Bytes32, plain: &Bytes32, out: &mut Bytes32);
}

/// How often each is timed; the best time counts.
const ROUNDS: usize = 25;

/// About how many bytes go through a function in one round.
const VOLUME: usize = 20_000_000;

fn box_hmac_sha256(key: &Bytes32, message: &[u8], out: &mut Bytes32) {
    assert_eq!(unsafe { release_box_hmac_sha256(key, message.as_ptr(), message.len(), out) }, 0);
}

fn box_keyed_blake2s(key: &Bytes32, message: &[u8], out: &mut Bytes32) {
    assert_eq!(unsafe { release_box_keyed_blake2s(key, message.as_ptr(), message.len(), out) }, 0);
}

fn box_chacha20(key: &Bytes32, plain: &[u8], out: &mut Bytes32) {
    unsafe { release_box_chacha20_encrypt(key, plain.try_into().unwrap(), out) }
}

type Function = fn(&Bytes32, &[u8], &mut Bytes32);

/// The seconds that so many calls take, under one key after the other, and the exclusive or of all results.
fn timed(function: Function, keys: &[Bytes32], input: &[u8], calls: usize) -> (f64, Bytes32) {
    let (mut all, mut out) = ([0; 32], [0; 32]);
    let start = Instant::now();
    for key in keys.iter().cycle().take(calls) {
        function(black_box(key), black_box(input), &mut out);
        for (sum, byte) in all.iter_mut().zip(out) {
            *sum ^= byte;
        }
    }
    (start.elapsed().as_secs_f64(), all)
}

/// Prints the best time of both, which take turns so that they meet the same machine.
fn compare(name: &str, ours: Function, theirs: Function, length: usize) {
    let input: Vec<u8> = (0..length).map(|i| (i * 31 + 5) as u8).collect();
    let keys: Vec<Bytes32> = (0..67usize).map(|n| std::array::from_fn(|i| (n * 37 + i * i * 11 + 3) as u8)).collect();
    let calls = VOLUME / (length + 200);
    let (mut our_best, mut their_best) = (f64::MAX, f64::MAX);
    for _ in 0..ROUNDS {
        let (our_time, our_result) = timed(ours, &keys, &input, calls);
        let (their_time, their_result) = timed(theirs, &keys, &input, calls);
        assert_eq!(our_result, their_result, "{name}: the results differ");
        our_best = our_best.min(our_time);
        their_best = their_best.min(their_time);
    }
    let nanoseconds = |seconds: f64| seconds / calls as f64 * 1e9;
    println!(
        "{name:<14}{length:>5} bytes   box {:>7.1} ns   Rust {:>7.1} ns   ratio {:.3}",
        nanoseconds(our_best),
        nanoseconds(their_best),
        our_best / their_best
    );
}

fn main() {
    for length in [65, 1024] {
        compare("HMAC-SHA-256", box_hmac_sha256, plain::hmac_sha256, length);
    }
    for length in [65, 1024] {
        compare("keyed BLAKE2s", box_keyed_blake2s, plain::keyed_blake2s, length);
    }
    compare("ChaCha20", box_chacha20, plain::chacha20_encrypt, 32);
}
