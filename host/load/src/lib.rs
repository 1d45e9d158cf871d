//! Loads of requests from a seed. A run that draws every field at random is refused nearly always; these runs follow a
//! state, so that grants, conflicts, changes of level, companies, parents, deletes and re-creates in one slot are all frequent.

mod trees;

pub use trees::depth;

use reference::{Companies, Kind, Level, Mode, Monitor, Profile, Request, CONFLICT_CLASSES, OBJECTS, SUBJECTS};

/// Numbers from a seed (splitmix64).
#[derive(Clone)]
pub struct Random(u64);

impl Random {
    pub fn new(seed: u64) -> Random {
        Random(seed)
    }

    pub fn number(&mut self) -> u64 {
        self.0 = self.0.wrapping_add(0x9E37_79B9_7F4A_7C15);
        let mut z = self.0;
        z = (z ^ (z >> 30)).wrapping_mul(0xBF58_476D_1CE4_E5B9);
        z = (z ^ (z >> 27)).wrapping_mul(0x94D0_49BB_1331_11EB);
        z ^ (z >> 31)
    }

    /// A number below n.
    pub fn below(&mut self, n: usize) -> usize {
        (self.number() % n as u64) as usize
    }

    /// True once in n times.
    pub fn once_in(&mut self, n: usize) -> bool {
        self.below(n) == 0
    }

    pub fn mode(&mut self) -> Mode {
        Mode::ALL[self.below(4)]
    }

    pub fn bytes(&mut self, n: usize) -> Vec<u8> {
        (0..n).map(|_| self.number() as u8).collect()
    }
}

/// How a run is drawn.
#[derive(Clone, Copy)]
pub struct Shape {
    /// objects that requests name, 1 to 64, and subjects, 1 to 16: few make conflicts frequent
    pub objects: usize,
    pub subjects: usize,
    /// classes and needs that levels take
    pub classes: usize,
    pub needs: usize,
    /// companies of each conflict class, 0 to 15: few make one subject meet two of them; with 0 no request sets any, and a run is
    /// the one that is drawn without them
    pub companies: usize,
    /// of ten creates as many carry a parent, where an object is live; with 0 none does, and a run is the one that is drawn without
    /// parents
    pub parents: usize,
    /// once in how many requests a byte string is damaged or has another length
    pub damaged: usize,
}

pub fn level(random: &mut Random, shape: Shape) -> Level {
    Level { class: random.below(shape.classes) as u8, needs: random.below(1 << shape.needs) as u16 }
}

/// The lowest level that dominates both.
fn upper(a: Level, b: Level) -> Level {
    Level { class: a.class.max(b.class), needs: a.needs | b.needs }
}

/// The highest level that both dominate.
fn lower(a: Level, b: Level) -> Level {
    Level { class: a.class.min(b.class), needs: a.needs & b.needs }
}

/// The level with no higher class and no other need than the profile has.
pub fn inside(profile: Profile, level: Level) -> Level {
    lower(level, Level { class: profile.highest_class, needs: profile.needs })
}

/// A table with most subjects enrolled. Clearances are drawn high and first labels low, so that labels rise between them.
pub fn table(random: &mut Random, shape: Shape) -> [u8; reference::TABLE_BYTES] {
    table_in(random, Profile::WIDEST, shape)
}

/// The same with the subjects and the levels of a profile.
pub fn table_in(random: &mut Random, profile: Profile, shape: Shape) -> [u8; reference::TABLE_BYTES] {
    let mut monitor = Monitor::empty();
    for subject in &mut monitor.subjects[..usize::from(profile.subjects)] {
        if !random.once_in(6) {
            *subject = Some(inside(profile, upper(level(random, shape), level(random, shape))));
        }
    }
    monitor.table()
}

/// All sixteen subjects enrolled, each with the class of its number and every need: a table that is told in one sentence, for
/// loads that others repeat. So are the subjects of examples/seeded-load.circ.
pub fn everyone() -> [u8; reference::TABLE_BYTES] {
    let clearance = |subject| Some(Level { class: subject as u8, needs: u16::MAX });
    Monitor::begin(std::array::from_fn(clearance)).table()
}

/// The next request for a state: most draws name the owner of the object, so that ownership is met often. Levels are inside the
/// profile of the state, and so is all else where the shape has no more subjects and objects.
pub fn request(random: &mut Random, shape: Shape, monitor: &Monitor) -> Request {
    let object = random.below(shape.objects);
    let live = monitor.objects[object].as_ref();
    let anyone = random.below(shape.subjects);
    let actor = match live {
        Some(it) if !random.once_in(3) => it.owner,
        _ => anyone,
    };
    let kind = if live.is_none() && !random.once_in(8) { create } else { drawn(random, shape) };
    let (mode, other, execute) = (random.mode(), random.below(shape.subjects), random.once_in(2));
    let level = new_level(random, shape, live.and_then(|it| it.label));
    let level = inside(monitor.profile, trees::beside_parent(random, monitor, object, level));
    let companies = new_companies(random, shape, live.map_or([0; CONFLICT_CLASSES], |it| it.companies));
    let parent = trees::new_parent(random, shape, monitor, object);
    let request = Request { actor, object, kind: kind(Fields { mode, other, execute, level, companies, parent }) };
    trees::moved_up(random, monitor, request)
}

/// The level that a change of level asks for. A label only rises until its object is deleted, and at the top every change is
/// refused or changes nothing. So a first label is low, and most changes ask for a step up.
pub fn new_level(random: &mut Random, shape: Shape, label: Option<Level>) -> Level {
    let Some(label) = label else {
        return lower(level(random, shape), level(random, shape));
    };
    match random.below(6) {
        0 => label,
        1 => level(random, shape),
        _ => step_up(random, shape, label),
    }
}

/// A higher class or more needs, by up to a quarter of those of the shape; the same level where there is no higher class, or
/// the label has these needs.
fn step_up(random: &mut Random, shape: Shape, label: Level) -> Level {
    if random.once_in(2) {
        let class = usize::from(label.class) + 1 + random.below(shape.classes.div_ceil(4));
        Level { class: class.min(shape.classes - 1) as u8, ..label }
    } else {
        let more = (0..shape.needs.div_ceil(4)).fold(0, |needs, _| needs | 1 << random.below(shape.needs));
        Level { needs: label.needs | more, ..label }
    }
}

/// The companies that are to be set: mostly one class has another one or none, sometimes they are those that the object has, or it
/// has none any more.
pub fn new_companies(random: &mut Random, shape: Shape, companies: Companies) -> Companies {
    if shape.companies == 0 {
        return companies;
    }
    let mut new = companies;
    match random.below(8) {
        0 => {}
        1 => new = [0; CONFLICT_CLASSES],
        way => {
            let company = if way < 4 { 0 } else { 1 + random.below(shape.companies) };
            // the first class most often, so that two objects have companies of one class
            let class = if random.once_in(2) { 0 } else { random.below(CONFLICT_CLASSES) };
            new[class] = company as u8;
        }
    }
    new
}

/// What a request of any kind may use.
struct Fields {
    mode: Mode,
    other: usize,
    execute: bool,
    level: Level,
    companies: Companies,
    parent: Option<usize>,
}

/// Makes a request of one kind.
type Make = fn(Fields) -> Kind;

fn create(it: Fields) -> Kind {
    Kind::Create { execute: it.execute, parent: it.parent }
}

/// How often each kind is drawn; the last one only where the shape has companies.
const WEIGHTS: [(Make, usize); 8] = [
    (|it| Kind::Get(it.mode), 16),
    (|it| Kind::Release(it.mode), 3),
    (|it| Kind::Give(it.other, it.mode), 5),
    (|it| Kind::Rescind(it.other, it.mode), 1),
    (create, 1),
    (|_| Kind::Delete, 1),
    (|it| Kind::ChangeLevel(it.level), 5),
    (|it| Kind::SetCompanies(it.companies), 5),
];

fn drawn(random: &mut Random, shape: Shape) -> Make {
    let weights = &WEIGHTS[..WEIGHTS.len() - usize::from(shape.companies == 0)];
    let mut left = random.below(weights.iter().map(|(_, weight)| weight).sum());
    for &(make, weight) in weights {
        if left < weight {
            return make;
        }
        left -= weight;
    }
    create
}

/// The bytes of the next request; sometimes a damaged one, or one of any length from 0 to 8.
pub fn bytes(random: &mut Random, shape: Shape, monitor: &Monitor) -> Vec<u8> {
    let mut bytes = request(random, shape, monitor).encode().to_vec();
    if random.once_in(shape.damaged) {
        match random.below(3) {
            0 => {
                let bit = random.below(48);
                bytes[bit / 8] ^= 0x80 >> (bit % 8);
            }
            1 => bytes.resize(random.below(9), 0),
            _ => {
                let n = random.below(9);
                bytes = random.bytes(n);
            }
        }
    }
    bytes
}

/// A state with n live, labelled objects, some of them under others, some companies and many rights and accesses.
pub fn rich(seed: u64, objects: usize, requests: usize) -> Monitor {
    let random = &mut Random::new(seed);
    let objects = objects.min(OBJECTS);
    let shape = Shape { objects, subjects: SUBJECTS, classes: 4, needs: 2, companies: 2, parents: 2, damaged: 50 };
    let mut monitor = Monitor::from_table(&table(random, shape)).expect("a table that was written");
    for _ in 0..requests {
        let bytes = bytes(random, shape, &monitor);
        monitor.request(&bytes);
    }
    monitor
}
