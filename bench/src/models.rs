//! The models that are timed.

/// A model's words and what they are for.
pub struct Case {
    pub name: String,
    pub words: Vec<u32>,
}

/// Words in the making. Quantities are a coefficient and a scale.
struct Draft {
    words: Vec<u32>,
}

impl Draft {
    fn new(states: u32, start: u32, prune: (u32, u32), steps: u32, entries: u32) -> Draft {
        let head = 0x11000000 | states << 12 | start;
        let prune = 0x30000000 | prune.1 << 20 | prune.0;
        let caps = 0x40000000 | steps << 20 | entries << 12;
        Draft { words: vec![head, 0x2000000A, prune, caps] }
    }

    /// Names a state as the generator's; before the transitions.
    fn named(&mut self, state: u32) {
        self.words.push(0xC0000000 | state);
    }

    fn slow(&mut self, from: u32, to: u32, rate: (u32, u32)) {
        self.words.push(0x50000000 | from << 12 | to);
        self.words.push(0x60000000 | rate.1 << 20 | rate.0);
    }

    /// A fast exit of mean and deviation 1E-4.
    fn fast(&mut self, from: u32, to: u32, probability: (u32, u32)) {
        self.words.push(0x70000000 | from << 12 | to);
        self.words.push(0x80400001);
        self.words.push(0x90400001);
        self.words.push(0xA0000000 | probability.1 << 20 | probability.0);
    }

    fn ended(mut self) -> Vec<u32> {
        self.words.push(0xF0000000);
        self.words
    }
}

/// A rate that differs from exit to exit, from 1E-3 to 1E-2.
fn rate(n: u32) -> (u32, u32) {
    (10_007 + n * 7_919 % 90_000, 7)
}

/// Every path is cut at the step limit: each of `exits` + 1 states leads to all others.
fn cut_tree(exits: u32, steps: u32) -> Vec<u32> {
    let mut draft = Draft::new(exits + 1, 1, (0, 0), steps, 24);
    for from in 1..=exits + 1 {
        for to in (1..=exits + 1).filter(|&to| to != from) {
            draft.slow(from, to, rate(from * 17 + to));
        }
    }
    draft.ended()
}

/// A tree of layers: from a state of layer i `branches[i]` exits go on, each to a state of its own in the next layer, and `deaths[i]` slow exits
/// lead to states without exits. In every other layer the exits that go on are fast.
fn layered(branches: &[u32], deaths: &[u32]) -> Vec<u32> {
    let widths: Vec<u32> = [1].iter().chain(branches).copied().collect();
    let most = deaths.iter().max().copied().unwrap_or(0);
    let inner: u32 = widths.iter().sum();
    let mut draft = Draft::new(inner + most, 1, (0, 0), 24, 24);
    let mut first = 1;
    for (layer, &width) in widths.iter().enumerate() {
        let next = first + width;
        let onward = branches.get(layer).copied().unwrap_or(0);
        for from in first..next {
            for exit in 0..onward {
                if layer % 2 == 0 {
                    draft.slow(from, next + exit, rate(from * 31 + exit));
                } else {
                    draft.fast(from, next + exit, share(onward, exit));
                }
            }
            for death in 0..deaths[layer] {
                draft.slow(from, inner + 1 + death, rate(from * 13 + death));
            }
        }
        first = next;
    }
    draft.ended()
}

/// The probability of one of `of` exits, which sum to 1.
fn share(of: u32, exit: u32) -> (u32, u32) {
    let even = 1_000_000 / of;
    match (of, exit) {
        (1, _) => (1, 0),
        (_, 0) => (1_000_000 - even * (of - 1), 6),
        _ => (even, 6),
    }
}

/// Deaths on paths of at most `layers` + 1 steps.
fn short_deaths(layers: usize) -> Vec<u32> {
    layered(&vec![4; layers], &vec![10; layers + 1])
}

/// Deaths on paths of 24 steps: eight steps that do not branch, fourteen that do, and sixteen deaths from each state at the end.
fn long_deaths() -> Vec<u32> {
    let mut branches = vec![1; 8];
    branches.extend([2; 14]);
    branches.push(3);
    let mut deaths = vec![0; 23];
    deaths.push(16);
    layered(&branches, &deaths)
}

/// Deaths on paths of four class 1 steps, with sixteen exits from each state on the way, whose figures stay exact: the rates out of a state are 3E-4, 6E-4,
/// 9E-4 and 12E-4, four times each, so that all quotients by 2, 3, 4 and 5 end early and the sums are short.
fn exact_tree() -> Vec<u32> {
    const EXITS: u32 = 16;
    let mut draft = Draft::new(1 + 4 * EXITS, 1, (0, 0), 24, 1);
    for from in 1..=1 + 3 * EXITS {
        // the start is a layer of its own
        let next = if from == 1 { 2 } else { (from - 2) / EXITS * EXITS + EXITS + 2 };
        for exit in 0..EXITS {
            draft.slow(from, next + exit, (3 * (1 + (from + exit) % 4), 4));
        }
    }
    draft.ended()
}

/// 1,000 states and 4,000 transitions: 800 states with five exits each, to states picked at random, 200 without.
fn wide_net(prune: (u32, u32)) -> Vec<u32> {
    let mut draft = Draft::new(1_000, 1, prune, 24, 2);
    let mut random = 1u32;
    for from in 1..=800 {
        let mut targets = Vec::new();
        while targets.len() < 5 {
            random = random.wrapping_mul(1_664_525).wrapping_add(1_013_904_223);
            let to = (random >> 16) % 1_000 + 1;
            if to != from && !targets.contains(&to) {
                targets.push(to);
                draft.slow(from, to, rate(random >> 20));
            }
        }
    }
    draft.ended()
}

/// The longest table: 100 generator's states, to which nothing leads, and 4,000 fast transitions, 16,105 words. Where `walked` is false the start has no
/// exits (refusal 11, after reading), else it has 16 that lead to deaths.
fn long_table(walked: bool) -> Vec<u32> {
    let start = if walked { 1 } else { 1_000 };
    let mut draft = Draft::new(1_000, start, (0, 0), 24, 1);
    for state in 401..=500 {
        draft.named(state);
    }
    for from in 1..=250 {
        for exit in 0..16 {
            draft.fast(from, 300 + exit, (625, 4));
        }
    }
    draft.ended()
}

/// The trees of about 1,000,000 steps.
pub fn trees() -> Vec<Case> {
    let case = |name: &str, words| Case { name: name.to_string(), words };
    vec![
        case("cuts end the paths", cut_tree(15, 5)),
        case("deaths end short paths (9 steps)", short_deaths(8)),
        case("deaths end long paths (24 steps)", long_deaths()),
        case("1,000 states, 4,000 transitions", wide_net((1, 17))),
    ]
}

/// A tree of 69,904 steps whose two marks are 1 to the last.
pub fn exact() -> Vec<Case> {
    vec![Case { name: "nothing is rounded (4 steps)".to_string(), words: exact_tree() }]
}

/// Reading alone, and reading with the tables.
pub fn tables() -> Vec<Case> {
    let case = |name: &str, words| Case { name: name.to_string(), words };
    vec![
        case("reading 16,105 words", long_table(false)),
        case("reading, tables and 16 steps", long_table(true)),
    ]
}

/// Trees of one kind that grow from step to step.
pub fn growing() -> Vec<Case> {
    let cuts =
        (3..=6).map(|l| Case { name: format!("cuts, {l} steps a path"), words: cut_tree(9, l) });
    let deaths = (3..=8)
        .map(|n| Case { name: format!("deaths, {} steps a path", n + 1), words: short_deaths(n) });
    cuts.chain(deaths).collect()
}
