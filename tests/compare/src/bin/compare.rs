//! compare COUNT [SEED]: the archive against the plain Rust, the calls that
//! take no open table, on volumes of all sorts.
//!
//! Makes COUNT volumes from the seeds SEED (0), SEED + 1 and so on. On each,
//! every such call is made on both libraries, format on one of sixteen. The
//! seed picks lengths, slots, names, patterns and kinds among those that
//! matter; the lengths of `out` for check and free space take turns. Answers
//! and all bytes of all buffers must agree, and so must the guard bytes around
//! the buffers. On each sound volume a whole search through the archive must
//! list what a list made by hand has. The first difference is printed with its
//! seed and ends the run.

use std::process::ExitCode;

use compare::comparison::both::halves;
use compare::comparison::guarded::{Guarded, GUARD};
use compare::comparison::search::{compare_search, listed};
use compare::comparison::seeds::over_seeds;
use compare::volume::answer::{number, value};
use compare::volume::kind::{Kind, KINDS, SECTOR};
use compare::volumes::bad_or_reserved;
use compare::volumes::calls::{perform, perform_on_archive, Scene};
use compare::volumes::chains;
use compare::volumes::finds::{random_find, Search};
use compare::volumes::mixed::{mixed_image, IN_TURN};
use compare::volumes::random::Random;
use compare::volumes::random_calls::random_name;
use compare::{archive, volume};

/// Each finding, and sound, must be met this often; in a short run, once in
/// twenty volumes.
const LEAST: u64 = 500;

/// Each way in which rescue ends, on sound volumes and on others, and each in
/// which find ends must be met this often; in a short run, once in a thousand
/// volumes.
const LEAST_ENDINGS: u64 = 20;

/// Sound volumes of each sort of bad and reserved clusters must be met this
/// often, and so must volumes with each sort of chains, and each length of `out`
/// on sound volumes; in a short run, once in a thousand volumes.
const LEAST_SORTS: u64 = 100;

/// The bytes of check's counts. Free space puts fewer.
const COUNTS: usize = 20;

/// The lengths of `out`: 0 to some bytes more than the counts have.
const OUTS: usize = 25;

/// Calls that only read an image, or a part of it, and may fill `out`.
type Reader = fn(&[u8], &mut [u8]) -> u64;

const READERS: [(&str, Reader, Reader); 3] = [
    ("check", volume::check, archive::check),
    ("check_system", volume::check_system, archive::check_system),
    ("free_space", volume::free_space, archive::free_space),
];

/// One volume on which both libraries are tried.
struct Trial {
    plain: Vec<u8>,
    archive: Guarded,
    random: Random,
    /// What check finds, and where; 0 is sound.
    finding: u32,
    place: u32,
    /// The length of `out` whose turn it is.
    out: usize,
    calls: u64,
    /// How often each reader met a sound volume with each length of `out`.
    outs: [[u64; OUTS]; 3],
    /// How often rescue and find ended in each of their ways.
    rescues: [u64; 5],
    finds: [u64; 5],
    /// Whole searches, and the slots that they listed.
    searches: [u64; 2],
}

impl Trial {
    fn new(seed: u64) -> Trial {
        let plain = mixed_image(seed);
        let checked = volume::check(&plain, &mut []);
        Trial {
            archive: Guarded::new(&plain, GUARD),
            finding: number(checked),
            place: value(checked),
            plain,
            random: Random::new(!seed),
            // Volumes of all sorts have this length, and then the next.
            out: (seed / IN_TURN) as usize % OUTS,
            calls: 0,
            outs: [[0; OUTS]; 3],
            rescues: [0; 5],
            finds: [0; 5],
            searches: [0; 2],
        }
    }

    /// Makes the calls; the error says where the libraries differ.
    fn run(&mut self) -> Result<(), String> {
        self.read_whole()?;
        self.read_parts()?;
        self.read_entries()?;
        self.rescue_files()?;
        self.find_files()?;
        self.search()?;
        self.archive
            .compare("image that was only read", &self.plain)?;
        // What format does depends on nothing of the volume but its length.
        match self.random.one_in(16) {
            true => self.format(),
            false => Ok(()),
        }
    }

    /// The readers on the whole image; where it is sound, once more with an
    /// `out` that is long enough for what they put there.
    fn read_whole(&mut self) -> Result<(), String> {
        for reader in 0..READERS.len() {
            self.read(reader, self.plain.len(), self.out)?;
            if self.finding == 0 {
                let enough = self.random.between(COUNTS, OUTS - 1);
                self.read(reader, self.plain.len(), enough)?;
            }
        }
        Ok(())
    }

    /// The readers on the bytes up to some length.
    fn read_parts(&mut self) -> Result<(), String> {
        let whole = self.plain.len();
        let system = self.random.pick(&KINDS).system_bytes();
        let some = self.random.below(whole + 1);
        for reader in 0..READERS.len() {
            let length = *self.random.pick(&[0, 512, 513, system - 1, system, some]);
            self.read(reader, length.min(whole), COUNTS)?;
        }
        Ok(())
    }

    /// One of the readers on the bytes up to some length.
    fn read(&mut self, reader: usize, length: usize, out: usize) -> Result<(), String> {
        let (name, plain, archive) = READERS[reader];
        let mut theirs = Guarded::random(out, &mut self.random);
        let mut ours = theirs.to_vec();
        let answers = [
            plain(&self.plain[..length], &mut ours),
            archive(&self.archive[..length], &mut theirs),
        ];
        self.calls += 1;
        self.outs[reader][out] += u64::from(number(answers[0]) == 0);
        same(answers, "out", &ours, &theirs)
            .map_err(|what| format!("{name}, {length} bytes, out of {out}: {what}"))
    }

    /// Entry at a slot that any root has, at one near a root's end and at one
    /// that no root has.
    fn read_entries(&mut self) -> Result<(), String> {
        let any = self.random.word() as u32;
        let slots = [
            self.random.below(64) as u32,
            *self.random.pick(&[63, 64, 65, 110, 111, 112]),
            *self.random.pick(&[0x100, 0x8000_0000, u32::MAX, any]),
        ];
        for slot in slots {
            let out = *self.random.pick(&[0, 21, 22, 22, 30]);
            let mut theirs = Guarded::random(out, &mut self.random);
            let mut ours = theirs.to_vec();
            let answers = [
                volume::entry(&self.plain, slot, &mut ours),
                archive::entry(&self.archive, slot, &mut theirs),
            ];
            self.calls += 1;
            same(answers, "out", &ours, &theirs)
                .map_err(|what| format!("entry {slot}, out of {out}: {what}"))?;
        }
        Ok(())
    }

    /// The kind that byte 512 names, or any.
    fn kind(&self) -> &'static Kind {
        let byte = self.plain.get(SECTOR).copied().unwrap_or(0);
        Kind::of_number(u32::from(byte)).unwrap_or(&KINDS[0])
    }

    /// Rescue of three files by name.
    fn rescue_files(&mut self) -> Result<(), String> {
        for _ in 0..3 {
            let name = random_name(self.kind(), &self.plain, 8, &mut self.random);
            let out = *self.random.pick(&[0, 1, 511, 512, 600, 3000]);
            let mut theirs = Guarded::random(out, &mut self.random);
            let mut ours = theirs.to_vec();
            let answers = [
                volume::rescue(&self.plain, &name, &mut ours),
                archive::rescue(&self.archive, &name, &mut theirs),
            ];
            self.calls += 1;
            self.rescues[ending(&RESCUE_NUMBERS, answers[0])] += 1;
            same(answers, "out", &ours, &theirs)
                .map_err(|what| format!("rescue '{}': {what}", name.escape_ascii()))?;
        }
        Ok(())
    }

    /// Three finds on a sound volume, one on another, which find can only refuse.
    fn find_files(&mut self) -> Result<(), String> {
        let times = if self.finding == 0 { 3 } else { 1 };
        for _ in 0..times {
            let find = random_find(self.kind(), &self.plain, 8, &mut self.random);
            let answers = [
                perform(&find, &mut image_alone(&mut self.plain)),
                perform_on_archive(&find, &mut image_alone(&mut self.archive)),
            ];
            self.calls += 1;
            self.finds[ending(&FIND_NUMBERS, answers[0])] += 1;
            same_answers(answers).map_err(|what| format!("{find}: {what}"))?;
        }
        Ok(())
    }

    /// A whole search through the archive, on a sound volume.
    fn search(&mut self) -> Result<(), String> {
        if self.finding != 0 {
            return Ok(());
        }
        let search = Search::random(self.kind(), &self.plain, &mut self.random);
        let slots = listed(&search, self.kind(), &self.plain);
        self.calls += slots.len() as u64 + 1;
        self.searches[0] += 1;
        self.searches[1] += slots.len() as u64;
        compare_search(&search, &slots, |find| {
            perform_on_archive(find, &mut image_alone(&mut self.archive))
        })
    }

    /// Format with a number that is no kind, then with each kind.
    fn format(&mut self) -> Result<(), String> {
        let kind = u32::from(self.random.pick(&KINDS).byte);
        let any = self.random.word() as u32;
        let others = [0, 0xFB, kind | 0x100, kind | 0xFFFF_FF00, any];
        let mut kinds = vec![*self.random.pick(&others)];
        kinds.extend(KINDS.iter().map(|kind| u32::from(kind.byte)));
        for kind in kinds {
            let answers = [
                volume::format(&mut self.plain, kind),
                archive::format(&mut self.archive, kind),
            ];
            self.calls += 1;
            same(answers, "image", &self.plain, &self.archive)
                .map_err(|what| format!("format {kind:#X}: {what}"))?;
        }
        Ok(())
    }
}

/// An image without a table and a buffer.
fn image_alone(image: &mut [u8]) -> Scene<&mut [u8]> {
    Scene {
        image,
        table: &mut [],
        buffer: &mut [],
    }
}

/// Whether the answers agree, the plain Rust's and the archive's.
fn same_answers(answers: [u64; 2]) -> Result<(), String> {
    let [expected, answered] = answers.map(halves);
    match answers[0] == answers[1] {
        true => Ok(()),
        false => Err(format!("{expected} expected, {answered} answered")),
    }
}

/// Whether the answers agree, and so the bytes.
fn same(answers: [u64; 2], what: &str, plain: &[u8], archive: &Guarded) -> Result<(), String> {
    same_answers(answers)?;
    archive
        .compare(what, plain)
        .map_err(|what| format!("both answer {}, {what}", halves(answers[0])))
}

/// How rescue ends: well, or by one of its refusals in their order.
const RESCUE_NUMBERS: [u32; 5] = [0, 40, 42, 2, 5];

/// The same of find.
const FIND_NUMBERS: [u32; 5] = [0, 40, 41, 42, 18];

/// The place of the answer's number among a call's numbers; a number that is
/// none of them stops the run.
fn ending(numbers: &[u32; 5], answer: u64) -> usize {
    let found = numbers.iter().position(|&n| n == number(answer));
    found.expect("a call answers one of its numbers")
}

/// What was met: volumes by their finding (0: sound) and by their chains, sound
/// ones by kind and by their bad and reserved clusters, readers on sound volumes
/// by the length of `out`, how rescue ended on sound volumes and on others, how
/// find ended, and searches with the slots that they listed.
#[derive(Default)]
struct Met {
    findings: [u64; 8],
    chains: [u64; 11],
    sound: [u64; 4],
    sorts: [u64; 6],
    outs: [[u64; OUTS]; 3],
    rescues: [[u64; 5]; 2],
    finds: [u64; 5],
    searches: [u64; 2],
    calls: u64,
}

impl Met {
    /// What one volume is.
    fn of(trial: &Trial) -> Met {
        let mut met = Met::default();
        met.findings[trial.finding as usize] = 1;
        let Some(kind) = Kind::of_image(&trial.plain) else {
            return met;
        };
        let chains = chains::sorts(kind, &trial.plain, trial.finding, trial.place);
        met.chains = chains.map(u64::from);
        if trial.finding == 0 {
            met.sound = KINDS.each_ref().map(|other| u64::from(other == kind));
            let values = chains::table(kind, &trial.plain);
            let clusters = &values[2..=kind.last_cluster()];
            met.sorts = bad_or_reserved::sorts(clusters).map(u64::from);
        }
        met
    }

    fn add(&mut self, other: Met) {
        let add = |to: &mut [u64], more: &[u64]| {
            to.iter_mut().zip(more).for_each(|(to, more)| *to += more);
        };
        add(&mut self.findings, &other.findings);
        add(&mut self.chains, &other.chains);
        add(&mut self.sound, &other.sound);
        add(&mut self.sorts, &other.sorts);
        for (to, more) in self.outs.iter_mut().zip(&other.outs) {
            add(to, more);
        }
        add(&mut self.finds, &other.finds);
        add(&mut self.searches, &other.searches);
        for (to, more) in self.rescues.iter_mut().zip(&other.rescues) {
            add(to, more);
        }
        self.calls += other.calls;
    }

    fn print(&self) {
        let kinds = KINDS.iter().zip(self.sound);
        let kinds: Vec<String> = kinds
            .map(|(kind, times)| format!("{:02X}: {times}", kind.byte))
            .collect();
        println!("sound: {} ({})", self.findings[0], kinds.join(", "));
        let sorts = bad_or_reserved::SORTS.iter().zip(self.sorts);
        let sorts: Vec<String> = sorts
            .map(|(sort, times)| format!("{sort}: {times}"))
            .collect();
        println!("sound, with clusters bad or reserved: {}", sorts.join(", "));
        for (finding, times) in self.findings.iter().enumerate().skip(1) {
            println!("finding {finding}: {times}");
        }
        for (sort, times) in chains::SORTS.iter().zip(self.chains) {
            println!("{sort}: {times}");
        }
        for ((name, ..), outs) in READERS.iter().zip(&self.outs) {
            let longest = OUTS - 1;
            println!("{name} of sound ones, out of 0 to {longest} bytes: {outs:?}");
        }
        println!(
            "rescue by {RESCUE_NUMBERS:?}: sound {:?}, others {:?}",
            self.rescues[0], self.rescues[1]
        );
        println!("find by {FIND_NUMBERS:?}: {:?}", self.finds);
        let [searches, slots] = self.searches;
        println!("{searches} whole searches: {slots} slots listed");
    }

    /// What was met too rarely for a run of so many volumes.
    fn rare(&self, count: u64) -> Option<String> {
        let sorts = LEAST_SORTS.min(count / 1000);
        self.rare_finding(LEAST.min(count / 20))
            .or_else(|| self.rare_sort(sorts))
            .or_else(|| self.rare_chain(sorts))
            .or_else(|| self.rare_out(sorts))
            .or_else(|| self.rare_ending(LEAST_ENDINGS.min(count / 1000)))
    }

    fn rare_finding(&self, volumes: u64) -> Option<String> {
        let finding = self.findings.iter().position(|&times| times < volumes)?;
        Some(format!(
            "finding {finding} (0: sound) was met fewer than {volumes} times"
        ))
    }

    fn rare_sort(&self, volumes: u64) -> Option<String> {
        let sort = self.sorts.iter().position(|&times| times < volumes)?;
        Some(format!(
            "fewer than {volumes} sound volumes had clusters bad or reserved so: {}",
            bad_or_reserved::SORTS[sort]
        ))
    }

    fn rare_chain(&self, volumes: u64) -> Option<String> {
        let sort = self.chains.iter().position(|&times| times < volumes)?;
        Some(format!(
            "fewer than {volumes} volumes had chains so: {}",
            chains::SORTS[sort]
        ))
    }

    fn rare_out(&self, calls: u64) -> Option<String> {
        let mut readers = READERS.iter().zip(&self.outs);
        readers.find_map(|((name, ..), outs)| {
            let out = outs.iter().position(|&times| times < calls)?;
            Some(format!(
                "{name} with out of {out} bytes met fewer than {calls} sound volumes"
            ))
        })
    }

    /// Rescue refuses no sound volume by 40 or 5.
    fn rare_ending(&self, endings: u64) -> Option<String> {
        let [sound, others] = self.rescues;
        let rescues = [&[sound[0], sound[2], sound[3]], &others[..]].concat();
        let is_rare = |met: &[u64]| met.iter().any(|&times| times < endings);
        let calls = [("rescue", &rescues[..]), ("find", &self.finds)];
        let (call, _) = calls.into_iter().find(|(_, met)| is_rare(met))?;
        Some(format!(
            "{call} ended in some way fewer than {endings} times"
        ))
    }
}

fn compare_volume(seed: u64) -> Result<Met, String> {
    let mut trial = Trial::new(seed);
    let mut met = Met::of(&trial);
    trial.run()?;
    met.calls = trial.calls;
    met.outs = trial.outs;
    met.rescues[usize::from(trial.finding != 0)] = trial.rescues;
    met.finds = trial.finds;
    met.searches = trial.searches;
    Ok(met)
}

/// Compares both libraries on all volumes; true where nothing is amiss.
fn compare(count: u64, first: u64) -> bool {
    let met = match over_seeds(first..first + count, compare_volume, Met::add) {
        Ok(met) => met,
        Err(failure) => {
            println!("volume of {failure}");
            return false;
        }
    };
    met.print();
    println!(
        "{count} volumes, {} calls on each library: all alike",
        met.calls
    );
    let rare = met.rare(count);
    if let Some(rare) = &rare {
        println!("{rare}");
    }
    rare.is_none()
}

fn main() -> ExitCode {
    let words: Option<Vec<u64>> = std::env::args()
        .skip(1)
        .map(|word| word.parse().ok())
        .collect();
    let good = match words.as_deref() {
        Some(&[count]) => compare(count, 0),
        Some(&[count, seed]) => compare(count, seed),
        _ => {
            eprintln!("compare COUNT [SEED]");
            return ExitCode::from(2);
        }
    };
    println!("{} passed, {} failed", u8::from(good), u8::from(!good));
    ExitCode::from(u8::from(!good))
}
