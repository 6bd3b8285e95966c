//! The register's workload: long moves, moves to the neighbouring cell, and buckets, on the device and on its peers. Places are
//! made before the clock starts, so no side computes keys in a turn.
use crate::avl::Avl;
use crate::curve::loop_key;
use crate::peers::{SetTree, SortedRow};
use std::process::Command;
use std::time::Instant;

const ROUNDS: usize = 5;

#[derive(Clone, Copy, Default)]
#[repr(C)]
pub struct Place {
    pub key: u32,
    pub x: u16,
    pub y: u16,
}

impl Place {
    fn new(x: u16, y: u16) -> Place {
        Place { key: loop_key(x, y), x, y }
    }

    /// What stands for a set at this place in a sorted structure.
    pub fn entry(self, set: u16) -> u64 {
        (self.key as u64) << 16 | set as u64
    }
}

#[derive(Clone, Copy)]
pub struct Region {
    pub low_x: u16,
    pub high_x: u16,
    pub low_y: u16,
    pub high_y: u16,
}

impl Region {
    pub fn of(place: Place) -> Region {
        Region { low_x: place.x, high_x: place.x, low_y: place.y, high_y: place.y }
    }

    pub fn join(self, other: Region) -> Region {
        Region {
            low_x: self.low_x.min(other.low_x),
            high_x: self.high_x.max(other.high_x),
            low_y: self.low_y.min(other.low_y),
            high_y: self.high_y.max(other.high_y),
        }
    }
}

/// The first and the last rank of a bucket.
pub fn ends(present: usize, size: usize, rank: usize) -> (usize, usize) {
    let last_bucket = present / size - 1;
    let number = (rank / size).min(last_bucket);
    let first = number * size;
    (first, if number == last_bucket { present - 1 } else { first + size - 1 })
}

pub trait Register {
    fn new() -> Self;
    fn enter(&mut self, set: u16, place: Place);
    fn relocate(&mut self, set: u16, place: Place);
    fn bucket(&self, set: u16, size: usize) -> (usize, usize, Region);
}

#[derive(Clone, Copy)]
enum Task {
    Long,
    Short,
    Bucket(usize),
}

struct Random(u32);

impl Random {
    fn next(&mut self) -> u32 {
        self.0 ^= self.0 << 13;
        self.0 ^= self.0 >> 17;
        self.0 ^= self.0 << 5;
        self.0
    }

    fn set(&mut self, sets: usize) -> u16 {
        1 + (self.next() % sets as u32) as u16
    }
}

/// Where each set starts, the cell beside it, and the state of the generator after these were drawn.
struct Scene {
    sets: usize,
    home: Vec<Place>,
    beside: Vec<Place>,
    state: u32,
}

fn scene(sets: usize) -> Scene {
    let mut random = Random(1);
    let (mut home, mut beside) = (vec![Place::default(); 4096], vec![Place::default(); 4096]);
    for set in 1..=sets {
        let (x, y) = ((random.next() % 4096) as u16, (random.next() % 4096) as u16);
        home[set] = Place::new(x, y);
        beside[set] = Place::new(x ^ 1, y);
    }
    Scene { sets, home, beside, state: random.0 }
}

fn bucket_sum(register: &impl Register, set: u16, size: usize, sum: u64) -> u64 {
    let (first, last, region) = register.bucket(set, size);
    let parts = [first as u16, last as u16, region.low_x, region.high_x, region.low_y, region.high_y];
    parts.iter().fold(sum, |sum, &part| sum.wrapping_mul(31).wrapping_add(part as u64))
}

/// The checksum of the answers, and nanoseconds a turn.
type Outcome = (u64, f64);

fn run<R: Register>(scene: &Scene, task: Task, turns: u32) -> Outcome {
    let mut register = R::new();
    let mut random = Random(scene.state);
    let mut away = vec![false; 4096];
    for set in 1..=scene.sets {
        register.enter(set as u16, scene.home[set]);
    }
    let mut sum = 0u64;
    let start = Instant::now();
    for _ in 0..turns {
        let set = random.set(scene.sets);
        match task {
            Task::Long => register.relocate(set, scene.home[random.set(scene.sets) as usize]),
            Task::Short => {
                let n = set as usize;
                register.relocate(set, if away[n] { scene.home[n] } else { scene.beside[n] });
                away[n] = !away[n];
            }
            Task::Bucket(size) => sum = bucket_sum(&register, set, size, sum),
        }
    }
    let time = start.elapsed().as_nanos() as f64 / turns as f64;
    for set in 1..=scene.sets {
        sum = bucket_sum(&register, set as u16, 10, sum);
    }
    (sum, time)
}

unsafe extern "C" {
    fn gnu_tree_run(
        task: u32,
        sets: u32,
        turns: u32,
        state: u32,
        home: *const Place,
        beside: *const Place,
        nanoseconds: *mut u64,
    ) -> u64;
}

fn run_gnu(scene: &Scene, task: Task, turns: u32) -> Outcome {
    let number = match task {
        Task::Long => 0,
        Task::Short => 1,
        Task::Bucket(size) => size as u32,
    };
    let mut time = 0u64;
    let sets = scene.sets as u32;
    // The arrays have 4,096 places each, and no set is above 4,095.
    let sum = unsafe {
        gnu_tree_run(number, sets, turns, scene.state, scene.home.as_ptr(), scene.beside.as_ptr(), &mut time)
    };
    (sum, time as f64 / turns as f64)
}

/// The device runs as a program of its own, which draws the same scene and times its own turns.
fn run_device(scene: &Scene, task: Task, turns: u32) -> Outcome {
    let name = match task {
        Task::Long => "long".to_string(),
        Task::Short => "short".to_string(),
        Task::Bucket(size) => format!("bucket{size}"),
    };
    let program = concat!(env!("CARGO_MANIFEST_DIR"), "/../crates/register_bench/out/register_bench");
    let output = Command::new(program)
        .args([name, scene.sets.to_string(), turns.to_string()])
        .output()
        .expect("run `rt run` in crates/register_bench first");
    let text = String::from_utf8(output.stdout).unwrap();
    let (sum, time) = text.trim().split_once(' ').expect("the device's program failed");
    (sum.parse().unwrap(), time.parse::<f64>().unwrap() / turns as f64)
}

pub fn races() {
    let tasks = [
        ("long move", Task::Long, 2_000_000),
        ("move to the neighbouring cell", Task::Short, 2_000_000),
        ("bucket of 10", Task::Bucket(10), 2_000_000),
        ("bucket of 64", Task::Bucket(64), 1_000_000),
    ];
    let peers: [(&str, fn(&Scene, Task, u32) -> Outcome); 5] = [
        ("device", run_device),
        ("GNU order-statistics tree", run_gnu),
        ("same tree in Rust", run::<Avl>),
        ("sorted Vec in Rust", run::<SortedRow>),
        ("BTreeSet in Rust", run::<SetTree>),
    ];
    for sets in [255, 4095] {
        let scene = scene(sets);
        for (what, task, turns) in tasks {
            let mut best = [f64::MAX; 5];
            for _ in 0..ROUNDS {
                let mut sum = [None; 5];
                for (i, (name, side)) in peers.iter().enumerate() {
                    // A set has no ranks: its buckets walk the row, so they get fewer turns, and no checksum to compare.
                    let fewer = *name == "BTreeSet in Rust" && matches!(task, Task::Bucket(_));
                    let (answer, time) = side(&scene, task, if fewer { turns / 100 } else { turns });
                    best[i] = best[i].min(time);
                    sum[i] = if fewer { None } else { Some(answer) };
                }
                for (i, (name, _)) in peers.iter().enumerate() {
                    assert!(sum[i].is_none() || sum[i] == sum[0], "{what}, {sets} sets: {name} answers otherwise");
                }
            }
            println!("{what}, {sets} sets:");
            for (i, (name, _)) in peers.iter().enumerate() {
                println!("  {name}: {:.0} ns, device/peer {:.2}", best[i], best[0] / best[i]);
            }
        }
    }
}
