//! What the tests share: both monitors on one run, dominance, pairs of modes, the wall, parents and children, orders of requests, requests that
//! tell two images apart, profiles, the fields of a request, what the rows of a unit say, what can be taken back, the program `circmon`, C programs over the header, and a program with bytes on its standard input.

mod fields;
pub mod history;
pub mod journal_rows;
pub mod level;
pub mod orders;
pub mod pair;
pub mod profile_changes;
pub mod profiles;
pub mod rights_lists;
pub mod rows;
pub mod start_order;
pub mod telling;
pub mod tree;
pub mod wall;

pub use fields::fields;

use circmon::{Rows, Unit, ROWS, ROW_BYTES};
use load::{Random, Shape};
use reference::{Get, Kind, Mode, Monitor, Request, IMAGE_BYTES, OBJECTS, SUBJECTS, TABLE_BYTES};
use std::collections::BTreeMap;
use std::io::Write;
use std::path::{Path, PathBuf};
use std::process::{Command, Output, Stdio};
use std::sync::OnceLock;

/// The root of the repository.
pub fn root() -> PathBuf {
    Path::new(env!("CARGO_MANIFEST_DIR")).join("../..").canonicalize().expect("host/ stands in the repository")
}

/// The image of a state of the second implementation.
pub fn image(monitor: &Monitor) -> Vec<u8> {
    let mut image = vec![0; IMAGE_BYTES];
    assert_eq!(monitor.write_image(&mut image), 0);
    image
}

/// Shapes of runs: few objects and subjects and many conflicts, many objects, few levels, many levels, few companies, many, none,
/// few parents, none: a delete that takes children leaves less for what is looked at here, and `tree_runs` has more of them.
pub const SHAPES: [Shape; 5] = [
    Shape { objects: 2, subjects: 3, classes: 3, needs: 2, companies: 2, parents: 0, damaged: 9 },
    Shape { objects: 5, subjects: 4, classes: 2, needs: 3, companies: 2, parents: 2, damaged: 20 },
    Shape { objects: 16, subjects: 6, classes: 4, needs: 2, companies: 0, parents: 3, damaged: 30 },
    Shape { objects: 64, subjects: 16, classes: 3, needs: 1, companies: 2, parents: 1, damaged: 50 },
    Shape { objects: 64, subjects: 16, classes: 16, needs: 16, companies: 15, parents: 2, damaged: 40 },
];

/// The shape of the run with this seed in turn as it is, and with most creates under a parent.
pub fn with_or_without_parents(seed: u64) -> Shape {
    let it = SHAPES[seed as usize / 2 % SHAPES.len()];
    if seed % 2 == 0 {
        it
    } else {
        Shape { parents: 7, ..it }
    }
}

/// The long runs: so many seeds from 0 on, each with a shape and so many requests.
pub const RUNS: u64 = 500;
pub const RUN_REQUESTS: usize = 2200;

/// The shape of the run with this seed.
pub fn shape(seed: u64) -> Shape {
    SHAPES[seed as usize % SHAPES.len()]
}

/// The table and the requests of a run, in the order in which they are drawn for the states that they leave.
pub fn drawn(seed: u64, shape: Shape, requests: usize) -> ([u8; TABLE_BYTES], Vec<Vec<u8>>) {
    let random = &mut Random::new(seed);
    let table = load::table(random, shape);
    let mut monitor = Monitor::from_table(&table).expect("a table that was written");
    let draw = |_| {
        let bytes = load::bytes(random, shape, &monitor);
        monitor.request(&bytes);
        bytes
    };
    (table, (0..requests).map(draw).collect())
}

/// A state that requests of the shape reach.
pub fn reached_in(random: &mut Random, shape: Shape, requests: usize) -> Monitor {
    let table = load::table(random, shape);
    let mut monitor = Monitor::from_table(&table).expect("a table that was written");
    for _ in 0..requests {
        let bytes = load::bytes(random, shape, &monitor);
        monitor.request(&bytes);
    }
    monitor
}

/// A state that a run of one of the shapes reaches.
pub fn reached(random: &mut Random, requests: usize) -> Monitor {
    let shape = SHAPES[random.below(SHAPES.len())];
    reached_in(random, shape, requests)
}

/// Every access that is held.
pub fn held(monitor: &Monitor) -> Vec<Get> {
    let of = |actor| (0..OBJECTS).flat_map(move |object| Mode::ALL.map(|mode| Get { actor, object, mode }));
    let is_held = |it: &Get| monitor.objects[it.object].as_ref().is_some_and(|o| o.held[it.actor] & it.mode.bit() != 0);
    (0..SUBJECTS).flat_map(of).filter(is_held).collect()
}

/// Every number that a request can get.
pub const REPLIES: [u8; 14] = [0, 1, 2, 3, 4, 5, 6, 7, 8, 9, 14, 18, 19, 20];

/// The second implementation's state with the access, the label or the companies that the request asks for put in, unchecked.
pub fn with_effect(monitor: &Monitor, request: &Request) -> Monitor {
    let mut after = monitor.clone();
    let object = after.objects[request.object].as_mut().expect("an object that is live");
    match request.kind {
        Kind::Get(mode) => object.held[request.actor] |= mode.bit(),
        Kind::ChangeLevel(level) => object.label = Some(level),
        Kind::SetCompanies(companies) => object.companies = companies,
        _ => panic!("neither get nor change of level or companies"),
    }
    after
}

/// How often each number was given, whatever numbers there are.
#[derive(Default, Debug)]
pub struct Count(BTreeMap<u8, usize>);

impl Count {
    pub fn note(&mut self, number: u8) {
        *self.0.entry(number).or_default() += 1;
    }

    pub fn of(&self, number: u8) -> usize {
        self.0.get(&number).copied().unwrap_or(0)
    }

    pub fn all(&self) -> usize {
        self.0.values().sum()
    }

    /// How many different numbers were given.
    pub fn numbers(&self) -> usize {
        self.0.len()
    }
}

/// The replies of runs: to all requests, and to changes of level alone.
#[derive(Default, Debug)]
pub struct Replies {
    pub all: Count,
    pub levels: Count,
}

impl Replies {
    fn note(&mut self, request: &[u8], reply: u8) {
        self.all.note(reply);
        if Request::decode(request).is_some_and(|it| matches!(it.kind, Kind::ChangeLevel(_))) {
            self.levels.note(reply);
        }
    }
}

/// Runs both on one load, comparing every reply, and the image at every `every` requests and at the end.
pub fn compare_run(seed: u64, shape: Shape, requests: usize, every: usize, replies: &mut Replies) {
    let (table, list) = drawn(seed, shape, requests);
    let mut monitor = Monitor::from_table(&table).expect("a table that was written");
    let mut unit = Unit::from_table(&table).unwrap_or_else(|n| panic!("seed {seed}: table refused with {n}"));
    for (at, bytes) in list.iter().enumerate() {
        let reply = monitor.request(bytes);
        assert_eq!(unit.ask(bytes), reply, "seed {seed}, request {at}: {bytes:02x?}");
        replies.note(bytes, reply);
        if at % every == 0 || at + 1 == requests {
            assert_eq!(unit.image()[..], image(&monitor)[..], "seed {seed}: images after request {at}");
        }
    }
    round_trip(seed, &monitor, &unit);
}

/// A state in both implementations.
#[derive(Clone)]
pub struct Both {
    pub monitor: Monitor,
    pub unit: Unit,
}

impl Both {
    pub fn new(monitor: Monitor) -> Both {
        let profile = profiles::proved(monitor.profile).expect("the profile of a monitor that was begun");
        let unit = Unit::from_image_in(profile, &image(&monitor)).expect("an image that is accepted");
        Both { monitor, unit }
    }

    /// The reply of both, which leave the same state; where the state did not change, every byte of the unit is left.
    pub fn request(&mut self, bytes: &[u8]) -> u8 {
        let before = self.unit.clone();
        let reply = self.monitor.request(bytes);
        assert_eq!(self.unit.ask(bytes), reply, "{bytes:02x?}");
        assert_eq!(self.unit.image()[..], image(&self.monitor)[..], "{bytes:02x?}");
        let left = self.unit.rows() == before.rows();
        assert!(reply == 0 || left, "{bytes:02x?} gets {reply}, and a byte of the unit is changed");
        reply
    }
}

/// Any content of a unit. Bytes that stand for true, and the numbers at the borders of a range, are frequent.
pub fn random_rows(random: &mut Random) -> Rows {
    let frequent = [0, 1, 1, 1, 2, 3, 4, 8, 14, 15, 16, 255];
    let often = 1 + random.below(8);
    let mut rows = [[0; ROW_BYTES]; ROWS];
    for byte in rows.iter_mut().flatten() {
        *byte = if random.once_in(often) { random.number() as u8 } else { frequent[random.below(frequent.len())] };
    }
    rows
}

/// Any bytes, but most subjects are enrolled, and mostly the profile has more than all subjects, objects and classes: else nearly
/// every request gets 3 or 2.
pub fn rows_with_subjects(random: &mut Random) -> Rows {
    let mut rows = random_rows(random);
    for row in &mut rows[rows::CLEARANCES..rows::PROFILE] {
        row[2] = if random.once_in(4) { row[2] } else { 1 };
    }
    if !random.once_in(8) {
        rows[rows::PROFILE].iter_mut().for_each(|byte| *byte |= 0xC0);
    }
    rows
}

/// The program `circmon`, proved and linked, whatever stands in target/.
pub fn program() -> &'static Path {
    static PROGRAM: OnceLock<PathBuf> = OnceLock::new();
    PROGRAM.get_or_init(|| {
        let mut command = Command::new(root().join("tools/program"));
        let output = command.arg("circmon").stdin(Stdio::null()).output().expect("a script of the repository");
        assert!(output.status.success(), "tools/program circmon: {}", String::from_utf8_lossy(&output.stderr));
        root().join("target/bin/circmon")
    })
}

/// A C program over the header and the proved library: compiled with these words into the folder.
pub fn compiled(source: &Path, folder: &Path, words: &[&str]) -> PathBuf {
    let binary = folder.join(source.file_stem().expect("a file"));
    let mut cc = Command::new("cc");
    cc.args(["-std=gnu11", "-Wall", "-Wextra", "-Wpedantic", "-Werror", "-I"]).arg(root().join("include")).args(words);
    cc.args([source, Path::new(circmon::ARCHIVE), Path::new("-o"), &binary]);
    let output = cc.output().expect("a C compiler is on the path");
    assert!(output.status.success(), "{cc:?}: {}", String::from_utf8_lossy(&output.stderr));
    binary
}

/// The same, of a program in c/ of this package.
pub fn compiled_here(name: &str, folder: &str, words: &[&str]) -> PathBuf {
    compiled(&root().join(format!("host/sidebyside/c/{name}.c")), Path::new(folder), words)
}

/// What a program prints with these bytes on its standard input.
pub fn fed(program: &mut Command, input: &[u8]) -> Output {
    let piped = program.stdin(Stdio::piped()).stdout(Stdio::piped()).stderr(Stdio::piped());
    let mut child = piped.spawn().unwrap_or_else(|error| panic!("{program:?}: {error}"));
    let mut stdin = child.stdin.take().expect("piped");
    let bytes = input.to_vec();
    // a program that reads no more closes its standard input, so the write may fail
    let writer = std::thread::spawn(move || {
        let _ = stdin.write_all(&bytes);
    });
    let output = child.wait_with_output().expect("the program was started");
    writer.join().expect("the writer does not panic");
    output
}

/// The image of a run is read by both and written back byte for byte.
pub fn round_trip(seed: u64, monitor: &Monitor, unit: &Unit) {
    let bytes = image(monitor);
    assert_eq!(
        Monitor::from_image(&bytes).as_ref(),
        Ok(monitor),
        "seed {seed}: read back by the second implementation"
    );
    assert_eq!(Unit::from_image(&bytes).as_ref(), Ok(unit), "seed {seed}: read back by the proved monitor");
}
