//! Times the device's Hilbert curve beside the usual iterative loop in Rust, on the same cells in one run.
//! Both sides are called through a C function that is not inlined, and their sums are compared.
use std::hint::black_box;
use std::time::Instant;

unsafe extern "C" {
    fn device_curve_key(x: u16, y: u16) -> u32;
    fn device_curve_cell(key: u32) -> u32;
}

const ORDER: u32 = 12;
const CELLS: usize = 10_000_000;
const ROUNDS: usize = 7;

/// The usual loop from the top bit down, as in textbooks and libraries, in the device's orientation.
#[inline(never)]
pub extern "C" fn loop_key(x: u16, y: u16) -> u32 {
    if x >= 1 << ORDER || y >= 1 << ORDER {
        return u32::MAX;
    }
    let (mut x, mut y) = (x as u32, y as u32);
    let mut key = 0;
    let mut s = 1 << (ORDER - 1);
    while s > 0 {
        let right = (x & s > 0) as u32;
        let up = (y & s > 0) as u32;
        key += s * s * ((3 * right) ^ up);
        if up == 0 {
            if right == 1 {
                x = (s - 1).wrapping_sub(x);
                y = (s - 1).wrapping_sub(y);
            }
            std::mem::swap(&mut x, &mut y);
        }
        s /= 2;
    }
    key
}

/// Its inverse, from the lowest digit up.
#[inline(never)]
extern "C" fn loop_cell(key: u32) -> u32 {
    if key >= 1 << (2 * ORDER) {
        return u32::MAX;
    }
    let (mut x, mut y) = (0u32, 0u32);
    let mut rest = key;
    let mut s = 1;
    while s < 1 << ORDER {
        let right = 1 & (rest / 2);
        let up = 1 & (rest ^ right);
        if up == 0 {
            if right == 1 {
                x = s - 1 - x;
                y = s - 1 - y;
            }
            std::mem::swap(&mut x, &mut y);
        }
        x += s * right;
        y += s * up;
        rest /= 4;
        s *= 2;
    }
    x + 65536 * y
}

/// Marsaglia's 32-bit xorshift.
fn cells() -> Vec<(u16, u16)> {
    let mut state = 1u32;
    let mut next = || {
        state ^= state << 13;
        state ^= state >> 17;
        state ^= state << 5;
        (state % (1 << ORDER)) as u16
    };
    (0..CELLS).map(|_| (next(), next())).collect()
}

/// Nanoseconds a call, and the sum of the answers.
fn time<T: Copy>(inputs: &[T], answer: impl Fn(T) -> u32) -> (f64, u64) {
    let start = Instant::now();
    let mut sum = 0u64;
    for input in inputs {
        sum = sum.wrapping_mul(31).wrapping_add(answer(black_box(*input)) as u64);
    }
    (start.elapsed().as_nanos() as f64 / inputs.len() as f64, sum)
}

/// The best of several rounds, the two sides in turn.
fn race<T: Copy>(name: &str, inputs: &[T], device: impl Fn(T) -> u32, peer: impl Fn(T) -> u32) {
    let (mut best_device, mut best_peer) = (f64::MAX, f64::MAX);
    for _ in 0..ROUNDS {
        let (device_time, device_sum) = time(inputs, &device);
        let (peer_time, peer_sum) = time(inputs, &peer);
        assert_eq!(device_sum, peer_sum, "{name}: the answers differ");
        best_device = best_device.min(device_time);
        best_peer = best_peer.min(peer_time);
    }
    println!("{name}: device {best_device:.1} ns, loop in Rust {best_peer:.1} ns, ratio {:.2}", best_device / best_peer);
}

pub fn races() {
    let cells = cells();
    let device_key = |(x, y): (u16, u16)| unsafe { device_curve_key(x, y) };
    let device_cell = |key: u32| unsafe { device_curve_cell(key) };
    let keys: Vec<u32> = cells.iter().map(|&c| device_key(c)).collect();
    assert!((0..2).all(|i| device_key((4095 + i, 4095)) == loop_key(4095 + i, 4095)));
    assert!((0..2).all(|i| device_cell(16_777_215 + i) == loop_cell(16_777_215 + i)));
    race("key of a cell", &cells, device_key, |(x, y)| loop_key(x, y));
    race("cell of a key", &keys, device_cell, |key| loop_cell(key));
}
