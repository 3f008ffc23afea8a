//! One call on both engines: answers and lent memory must be the same, byte for byte. What comes out is counted.

use guard::watch;
use oracle::Answer;
use runner::engine::{Engine, Oracle};
use runner::memory::{hex, Lent};

#[derive(Clone, Copy, PartialEq, Eq, Debug)]
pub enum Function {
    CheckBook,
    Compile,
    CheckImage,
    Fallback,
    Level,
    Mark,
    Edge,
    Step,
    Run,
    ShortList,
    Part,
    Group,
    /// The program `list`.
    List,
}

pub const FUNCTIONS: [Function; 13] = [
    Function::CheckBook,
    Function::Compile,
    Function::CheckImage,
    Function::Fallback,
    Function::Level,
    Function::Mark,
    Function::Edge,
    Function::Step,
    Function::Run,
    Function::ShortList,
    Function::Part,
    Function::Group,
    Function::List,
];

impl Function {
    pub fn name(self) -> &'static str {
        match self {
            Function::CheckBook => "check_book",
            Function::Compile => "compile",
            Function::CheckImage => "check_image",
            Function::Fallback => "fallback",
            Function::Level => "level",
            Function::Mark => "mark",
            Function::Edge => "edge",
            Function::Step => "step",
            Function::Run => "run",
            Function::ShortList => "short_list",
            Function::Part => "part",
            Function::Group => "group",
            Function::List => "list",
        }
    }

    fn index(self) -> usize {
        FUNCTIONS.iter().position(|function| *function == self).expect("one of them")
    }
}

/// What has been called and how it came out, by the oracle's answers.
#[derive(Clone, Default)]
pub struct Tally {
    pub calls: u64,
    pub successes: u64,
    pub refusals: [u64; 26],
}

/// Runs and images of the kinds that matter most.
#[derive(Clone, Default)]
pub struct Kinds {
    pub images_over_50: u64,
    pub images_over_500: u64,
    pub runs_with_records_and_steps: u64,
    pub of_these_cut_by_room: u64,
    pub runs_cut_by_room: u64,
    /// Of 8,000 events and 4,096 failure steps at the least: a run may make a table of steps for them.
    pub long_runs: u64,
}

pub struct Compare {
    engine: Box<dyn Engine>,
    tallies: Vec<Tally>,
    pub kinds: Kinds,
    /// The group that is drawing, and its seed: with both, a failure can be drawn again.
    group: String,
    seed: u64,
    differences: u64,
    pattern: u8,
    /// Each call is printed before it is made.
    trace: bool,
    /// Only one call in so many is drawn.
    share: usize,
    /// Where the slices stand, where that is of any account.
    stand: &'static str,
}

/// Printed for a group; the rest are only counted.
const SHOWN: u64 = 3;

impl Compare {
    pub fn new(engine: Box<dyn Engine>, trace: bool, share: usize) -> Compare {
        Compare {
            engine,
            tallies: vec![Tally::default(); FUNCTIONS.len()],
            kinds: Kinds::default(),
            group: String::new(),
            seed: 0,
            differences: 0,
            pattern: 0,
            trace,
            share,
            stand: "",
        }
    }

    /// From here on this engine, whose slices stand so, is held to the oracle; what was counted stays.
    pub fn hold(&mut self, engine: Box<dyn Engine>, stand: &'static str) {
        self.engine = engine;
        self.stand = stand;
    }

    /// How often a group is to do what the whole run does so many times.
    pub fn times(&self, whole: usize) -> usize {
        whole.div_ceil(self.share)
    }

    /// Whether the engine has a function: one that has not landed answers nothing at all.
    pub fn landed(&self, function: Function) -> bool {
        let (engine, inputs) = (&self.engine, "every slice empty, every number 0");
        self.traced(function, || inputs.to_string());
        watch::during(&|| self.named(function, inputs), || match function {
            Function::CheckBook => engine.check_book(&[]).is_some(),
            Function::Compile => engine.compile(&[], &mut []).is_some(),
            Function::CheckImage => engine.check_image(&[]).is_some(),
            Function::Fallback => engine.fallback(&[], 0).is_some(),
            Function::Level => engine.level(&[], 0).is_some(),
            Function::Mark => engine.mark(&[], 0).is_some(),
            Function::Edge => engine.edge(&[], 0, 0).is_some(),
            Function::Step => engine.step(&[], 0, 0).is_some(),
            Function::Run => engine.run(&[], 0, 0, &[], &mut []).is_some(),
            Function::ShortList => engine.short_list(&[], &mut []).is_some(),
            Function::Part => engine.part(&[], 0, 0, 0).is_some(),
            Function::Group => engine.group(0).is_some(),
            Function::List => engine.listing(&[], &[]).is_some(),
        })
    }

    pub fn tally(&self, function: Function) -> &Tally {
        &self.tallies[function.index()]
    }

    pub fn refusals(&self, number: usize) -> u64 {
        self.tallies.iter().map(|tally| tally.refusals[number]).sum()
    }

    pub fn calls(&self) -> u64 {
        self.tallies.iter().map(|tally| tally.calls).sum()
    }

    pub fn begin(&mut self, group: &str, seed: u64) {
        self.group = group.to_string();
        self.seed = seed;
        self.differences = 0;
        // From the group's beginning, so that a group drawn alone has the patterns it has in the whole run.
        self.pattern = 0;
    }

    /// How many calls of the group came out differently.
    pub fn differences(&self) -> u64 {
        self.differences
    }

    fn traced(&self, function: Function, inputs: impl Fn() -> String) {
        if self.trace {
            println!("{}: {}", function.name(), inputs());
        }
    }

    /// Which call it is, and by what it can be drawn again.
    fn drawn(&self, function: Function) -> String {
        let stand = if self.stand.is_empty() { String::new() } else { format!(", slices {}", self.stand) };
        format!("{} (group '{}', seed {}{stand})", function.name(), self.group, self.seed)
    }

    /// The call that is made, for one that does not come back.
    fn named(&self, function: Function, inputs: &str) -> String {
        format!("{}\n    with {inputs}", self.drawn(function))
    }

    fn differs(&mut self, function: Function, inputs: &str, why: String) {
        self.differences += 1;
        if self.differences <= SHOWN {
            println!("DIFFERS {}: {why}", self.drawn(function));
            println!("    with {inputs}");
        }
    }

    fn count(&mut self, function: Function, answer: Answer) {
        let tally = &mut self.tallies[function.index()];
        tally.calls += 1;
        match answer.number {
            0 => tally.successes += 1,
            number => tally.refusals[number as usize] += 1,
        }
    }

    fn asked(
        &mut self,
        function: Function,
        call: impl Fn(&dyn Engine) -> Option<Answer>,
        inputs: impl Fn() -> String,
    ) -> Answer {
        self.traced(function, &inputs);
        let due = call(&Oracle).expect("the oracle has every function");
        match watch::during(&|| self.named(function, &inputs()), || call(self.engine.as_ref())) {
            Some(got) if got == due => {}
            got => self.differs(function, &inputs(), format!("oracle {due:?}, {} {got:?}", self.engine.name())),
        }
        self.count(function, due);
        due
    }

    /// A call with lent memory: the oracle's memory afterwards is what the other's must be, guards included. Gives the
    /// oracle's answer and its room.
    fn lent(
        &mut self,
        function: Function,
        room: usize,
        call: impl Fn(&dyn Engine, &mut [u8]) -> Option<Answer>,
        inputs: impl Fn() -> String,
    ) -> (Answer, Vec<u8>) {
        self.traced(function, &inputs);
        // Another pattern each time: a byte that one pattern hides shows under the next.
        self.pattern = self.pattern.wrapping_add(101);
        let mut one = Lent::new(room, self.pattern);
        let mut other = Lent::new(room, self.pattern);
        let due = call(&Oracle, one.room()).expect("the oracle has every function");
        match watch::during(&|| self.named(function, &inputs()), || call(self.engine.as_ref(), other.room())) {
            Some(got) if got == due => {
                if let Some(at) = (0..one.whole().len()).find(|at| one.whole()[*at] != other.whole()[*at]) {
                    let (left, right) = (one.whole()[at], other.whole()[at]);
                    let at = at as i64 - (one.whole().len() - room) as i64 / 2;
                    let why = format!("{due:?}, but lent byte {at} is {right:02x} where the oracle leaves {left:02x}");
                    self.differs(function, &inputs(), why);
                }
            }
            got => self.differs(function, &inputs(), format!("oracle {due:?}, {} {got:?}", self.engine.name())),
        }
        self.count(function, due);
        (due, one.now().to_vec())
    }

    pub fn check_book(&mut self, book: &[u8]) -> Answer {
        self.asked(Function::CheckBook, |engine| engine.check_book(book), || format!("book {}", hex(book)))
    }

    pub fn compile(&mut self, book: &[u8], room: usize) -> Answer {
        let inputs = || format!("room {room} book {}", hex(book));
        let (answer, _) = self.lent(Function::Compile, room, |engine, out| engine.compile(book, out), inputs);
        if answer.number == 0 {
            self.kinds.images_over_50 += u64::from(answer.b > 50);
            self.kinds.images_over_500 += u64::from(answer.b > 500);
        }
        answer
    }

    pub fn check_image(&mut self, image: &[u8]) -> Answer {
        self.asked(Function::CheckImage, |engine| engine.check_image(image), || format!("image {}", hex(image)))
    }

    /// One of the three questions that ask a place alone.
    pub fn question(&mut self, function: Function, image: &[u8], place: u32) -> Answer {
        let inputs = || format!("place {place} image {}", hex(image));
        match function {
            Function::Fallback => self.asked(function, |engine| engine.fallback(image, place), inputs),
            Function::Level => self.asked(function, |engine| engine.level(image, place), inputs),
            Function::Mark => self.asked(function, |engine| engine.mark(image, place), inputs),
            _ => unreachable!("three questions ask a place alone"),
        }
    }

    /// One of the two that ask a place and an event.
    pub fn with_event(&mut self, function: Function, image: &[u8], place: u32, event: u8) -> Answer {
        let inputs = || format!("place {place} event {event:02x} image {}", hex(image));
        match function {
            Function::Edge => self.asked(function, |engine| engine.edge(image, place, event), inputs),
            Function::Step => self.asked(function, |engine| engine.step(image, place, event), inputs),
            _ => unreachable!("two ask a place and an event"),
        }
    }

    /// Gives the answer and the records written.
    pub fn run(&mut self, image: &[u8], place: u32, base: u32, log: &[u8], room: usize) -> (Answer, Vec<u8>) {
        let inputs = || format!("place {place} base {base} room {room} log {} image {}", hex(log), hex(image));
        let call = |engine: &dyn Engine, out: &mut [u8]| engine.run(image, place, base, log, out);
        let (answer, mut out) = self.lent(Function::Run, room, call, inputs);
        if answer.number == 0 {
            let cut = answer.a < log.len() as u64;
            self.kinds.runs_cut_by_room += u64::from(cut);
            self.kinds.long_runs += u64::from(answer.a >= 8_000 && answer.d >= 4_096);
            if answer.c > 0 && answer.d > 0 {
                self.kinds.runs_with_records_and_steps += 1;
                self.kinds.of_these_cut_by_room += u64::from(cut);
            }
        }
        out.truncate(8 * answer.c as usize);
        (answer, out)
    }

    pub fn short_list(&mut self, list: &[u8], room: usize) -> Answer {
        let inputs = || format!("room {room} list {}", hex(list));
        self.lent(Function::ShortList, room, |engine, out| engine.short_list(list, out), inputs).0
    }

    pub fn part(&mut self, log: &[u8], base: u32, end: u32, length: u32) -> Answer {
        let inputs = || format!("base {base} end {end} length {length} log {}", hex(log));
        self.asked(Function::Part, |engine| engine.part(log, base, end, length), inputs)
    }

    pub fn group(&mut self, event: u8) {
        // A letter is an answer like any other here: its one number is the letter.
        let call = |engine: &dyn Engine| engine.group(event).map(|letter| Answer::numbers(u64::from(letter), 0, 0, 0));
        self.asked(Function::Group, call, || format!("event {event:02x}"));
    }

    pub fn list(&mut self, book: &[u8], log: &[u8]) {
        let inputs = || format!("book {} log {}", hex(book), hex(log));
        self.traced(Function::List, inputs);
        let due = Oracle.listing(book, log).expect("the oracle has every function");
        let got = self.engine.listing(book, log);
        if got.as_ref() != Some(&due) {
            let name = self.engine.name();
            self.differs(Function::List, &inputs(), format!("oracle {due:?}, {name} {got:?}"));
        }
        // Its refusals are counted by the number that is printed.
        let number = due.strip_prefix("refused ").and_then(|rest| rest.split(' ').next()?.parse().ok());
        self.count(Function::List, Answer::refused(number.unwrap_or(0), 0));
    }
}
