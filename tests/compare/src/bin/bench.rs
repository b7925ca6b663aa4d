//! bench: how long pieces of work take, archive against plain Rust.
//! bench archive|plain WORK COUNT: a piece of work so many times by one of them
//! and no clock, for a counter of instructions.

use std::hint::black_box;
use std::process::ExitCode;
use std::time::{Duration, Instant};

use compare::volume::answer::packed;
use compare::volume::kind::Kind;
use compare::volumes::plan::{File, Plan};
use compare::volumes::random::Random;
use compare::{archive, volume};

type Stamped = fn(&mut [u8], &mut [u8], u32, u32, u32, u32, u32, u32, u32) -> u64;

/// The calls that are measured.
struct Library {
    check: fn(&[u8], &mut [u8]) -> u64,
    find: fn(&[u8], &[u8], u32, u32) -> u64,
    open: fn(&[u8], &mut [u8], &[u8], u32) -> u64,
    read: fn(&[u8], &mut [u8], u32, &mut [u8]) -> u64,
    write: fn(&mut [u8], &mut [u8], u32, &[u8]) -> u64,
    close: Stamped,
}

const ARCHIVE: Library = Library {
    check: archive::check,
    find: archive::find,
    open: archive::open,
    read: archive::read,
    write: archive::write,
    close: archive::close,
};

const PLAIN: Library = Library {
    check: volume::check,
    find: volume::find,
    open: volume::open,
    read: volume::read,
    write: volume::write,
    close: volume::close,
};

/// What a piece of work begins with.
#[derive(Clone)]
struct Scene {
    image: Vec<u8>,
    table: [u8; 16],
}

/// A piece of work: done `times` times in a round, each round on a fresh copy
/// of the scene. It tests every answer.
struct Work {
    word: &'static str,
    title: &'static str,
    scene: Scene,
    rounds: usize,
    times: u32,
    act: fn(&Library, &mut Scene, u32),
}

const CLUSTER: usize = 1024;
const WHOLE_DISK: usize = 354 * CLUSTER;

/// FD with a file of whole clusters for each of these chains.
fn with_chains<'a>(chains: impl Iterator<Item = &'a [u16]>) -> Scene {
    let mut plan = Plan::blank(Kind::of_number(0xFD).expect("one of the four kinds"));
    for (slot, clusters) in chains.enumerate() {
        let file = File {
            slot,
            clusters: clusters.to_vec(),
            content: vec![0x42; clusters.len() * CLUSTER],
        };
        plan.add_file(file, day_file(slot), 0x20, 0xFFF);
    }
    Scene {
        image: plan.image(),
        table: [0; 16],
    }
}

/// The 11 bytes of a day file's name.
fn day_file(day: usize) -> [u8; 11] {
    let mut name = *b"DAY00000LOG";
    name[3..8].copy_from_slice(format!("{day:05}").as_bytes());
    name
}

/// The clusters of FD, in any order.
fn shuffled() -> Vec<u16> {
    let mut clusters: Vec<u16> = (2..=355).collect();
    Random::new(1).shuffle(&mut clusters);
    clusters
}

/// 59 files of 3 clusters, all over the disk: 177 of 354 clusters.
fn half_full() -> Scene {
    with_chains(shuffled().chunks_exact(3).take(59))
}

/// 112 files that all have the same chain of all 354 clusters: cluster 2 is
/// the lowest in two chains.
fn shared() -> Scene {
    with_chains(std::iter::repeat(&shuffled()[..]).take(112))
}

/// With a new file at handle 0.
fn with_new_file(mut scene: Scene) -> Scene {
    let (image, table) = (&mut scene.image, &mut scene.table);
    assert_eq!(
        volume::create(image, table, b"TODAY.LOG", 0, 6, 40, 0, 3, 9, 1),
        0
    );
    scene
}

fn check(library: &Library, scene: &mut Scene, times: u32, answer: u64, counts: [u8; 20]) {
    for _ in 0..times {
        let mut out = [0; 20];
        assert_eq!((library.check)(black_box(&scene.image), &mut out), answer);
        assert_eq!(out, counts);
    }
}

fn check_half_full(library: &Library, scene: &mut Scene, times: u32) {
    let mut counts = [0; 20];
    [counts[0], counts[4], counts[8]] = [59, 177, 177];
    check(library, scene, times, 0, counts);
}

fn check_shared(library: &Library, scene: &mut Scene, times: u32) {
    check(library, scene, times, packed(6, 2), [0; 20]);
}

/// Weighings of 32 bytes, one after the other.
fn write_weighings(library: &Library, scene: &mut Scene, times: u32) {
    for _ in 0..times {
        let answer = (library.write)(&mut scene.image, &mut scene.table, 0, &[0x37; 32]);
        assert_eq!(answer, 32);
    }
}

fn open_read_close(library: &Library, scene: &mut Scene, times: u32) {
    for _ in 0..times {
        let mut bytes = [0; 512];
        let (image, table) = (&mut scene.image, &mut scene.table);
        assert_eq!((library.open)(image, table, b"DAY00030.LOG", 0), 0);
        assert_eq!((library.read)(image, table, 0, &mut bytes), 512);
        assert_eq!((library.close)(image, table, 0, 6, 40, 0, 3, 9, 1), 0);
        assert_eq!(bytes, [0x42; 512]);
    }
}

/// The last of the 59 day files, by a pattern that nearly fits the others.
fn find_last(library: &Library, scene: &mut Scene, times: u32) {
    for _ in 0..times {
        let answer = (library.find)(black_box(&scene.image), b"DAY???58.*", 0, 0);
        assert_eq!(answer, 58);
    }
}

fn fill_disk(library: &Library, scene: &mut Scene, times: u32) {
    let bytes = [0x37; WHOLE_DISK];
    for _ in 0..times {
        let answer = (library.write)(&mut scene.image, &mut scene.table, 0, &bytes);
        assert_eq!(answer, WHOLE_DISK as u64);
    }
}

#[rustfmt::skip]
fn works() -> [Work; 6] {
    let work = |word, title, scene, rounds, times, act| Work {
        word,
        title,
        scene,
        rounds,
        times,
        act,
    };
    let blank = with_chains(std::iter::empty());
    [
        work("half-full", "check of a half-full FD",
            half_full(), 2001, 20, check_half_full),
        work("shared", "check of an FD with one chain for 112 files",
            shared(), 2001, 20, check_shared),
        work("writes", "a write of 32 bytes, a thousand in a row, half-full FD",
            with_new_file(half_full()), 301, 1000, write_weighings),
        work("read", "open, read of 512 bytes and close, half-full FD",
            half_full(), 2001, 20, open_read_close),
        work("full", "one write that fills a blank FD",
            with_new_file(blank), 2001, 1, fill_disk),
        work("find", "find of the last of 59 files, half-full FD",
            half_full(), 2001, 20, find_last),
    ]
}

/// One round on a fresh copy of the scene.
fn round(library: &Library, work: &Work) -> Duration {
    let mut scene = work.scene.clone();
    let begin = Instant::now();
    (work.act)(library, &mut scene, work.times);
    begin.elapsed()
}

/// The median, in nanoseconds of one time.
fn median(mut rounds: Vec<Duration>, work: &Work) -> f64 {
    rounds.sort();
    rounds[rounds.len() / 2].as_nanos() as f64 / f64::from(work.times)
}

/// Rounds of both in turn, so that whatever else the machine does meets both.
fn compare_times(work: &Work) {
    let (mut archives, mut plains) = (Vec::new(), Vec::new());
    for turn in 0..work.rounds {
        if turn % 2 == 0 {
            archives.push(round(&ARCHIVE, work));
            plains.push(round(&PLAIN, work));
        } else {
            plains.push(round(&PLAIN, work));
            archives.push(round(&ARCHIVE, work));
        }
    }
    let (archive, plain) = (median(archives, work), median(plains, work));
    println!(
        "{}, medians of {} rounds of {}:",
        work.title, work.rounds, work.times
    );
    println!("archive    {archive:.0} ns");
    println!("plain Rust {plain:.0} ns");
    println!("ratio      {:.2}", archive / plain);
}

fn main() -> ExitCode {
    let words: Vec<String> = std::env::args().skip(1).collect();
    let words: Vec<&str> = words.iter().map(String::as_str).collect();
    let works = works();
    match words[..] {
        [] => works.iter().for_each(compare_times),
        [library @ ("archive" | "plain"), word, times] => {
            let library = if library == "archive" { ARCHIVE } else { PLAIN };
            let work = works
                .iter()
                .find(|work| work.word == word)
                .expect("half-full, shared, writes, read, full or find");
            (work.act)(
                &library,
                &mut work.scene.clone(),
                times.parse().expect("a count"),
            );
        }
        _ => {
            eprintln!("bench [archive|plain half-full|shared|writes|read|full|find COUNT]");
            return ExitCode::from(2);
        }
    }
    ExitCode::SUCCESS
}
