//! The paper's examples, its slips, and each refusal on both sides of its
//! limit, as a list of named cases.

use paper::{answer, solve, translate, workspace_need, Answer, Solved, Translated};
use paper::{FULL_LENGTHS, FULL_LITERALS, FULL_NAMES, FULL_PRIMITIVES, FULL_RANGES};

use crate::M;

/// A case and whether it came out as the paper says.
pub struct Case {
    pub name: String,
    pub passed: bool,
}

/// Every case there is.
pub fn all() -> Vec<Case> {
    let mut list = List { cases: Vec::new() };
    desk_examples(&mut list);
    budget_examples(&mut list);
    narrowing_examples(&mut list);
    search_slips(&mut list);
    solve_limits(&mut list);
    leading_limits(&mut list);
    buffer_rules(&mut list);
    text_limits(&mut list);
    versions(&mut list);
    line_limits(&mut list);
    lent_list_limits(&mut list);
    line_calls(&mut list);
    list.cases
}

struct List {
    cases: Vec<Case>,
}

impl List {
    fn add(&mut self, name: impl Into<String>, passed: bool) {
        self.cases.push(Case { name: name.into(), passed });
    }

    /// The desk's whole output for a sheet without its mark.
    fn desk(&mut self, body: &str, output: &str) {
        self.desk_of(1, body, output);
    }

    /// The same for a sheet of a version.
    fn desk_of(&mut self, version: u16, body: &str, output: &str) {
        let passed = answer(format!("RUL {version}\n{body}\n").as_bytes()) == output.as_bytes();
        self.add(format!("desk: {version} {}", shortened(body)), passed);
    }

    /// What translating a sheet without its mark comes to.
    fn verdict(&mut self, body: &str, wanted: Verdict) {
        self.verdict_of(1, body, wanted);
    }

    /// The same for a sheet of a version.
    fn verdict_of(&mut self, version: u16, body: &str, wanted: Verdict) {
        self.whole(&format!("RUL {version}\n{body}\n"), wanted);
    }

    /// What translating a whole text comes to.
    fn whole(&mut self, sheet: &str, wanted: Verdict) {
        let passed = verdict_of(sheet.as_bytes()) == wanted;
        self.add(format!("sheet: {} {wanted:?}", shortened(sheet)), passed);
    }

    fn refusal(&mut self, name: &str, given: &Given, number: u8) {
        self.add(format!("refusal {number}: {name}"), given.run().answer == Err(number));
    }

    fn sound(&mut self, name: &str, given: &Given) {
        self.add(format!("no refusal: {name}"), given.run().answer.is_ok());
    }
}

fn shortened(text: &str) -> String {
    let line = text.trim_end().replace('\n', " | ");
    line.chars().take(70).collect()
}

/// Accepted, or refused with number and line.
#[derive(Clone, Copy, Debug, PartialEq, Eq)]
enum Verdict {
    Fine,
    Not(u8, usize),
}
use Verdict::{Fine, Not};

fn verdict_of(sheet: &[u8]) -> Verdict {
    match translate(
        sheet,
        &mut [0; FULL_RANGES],
        &mut [0; FULL_PRIMITIVES],
        &mut [0; FULL_LENGTHS],
        &mut [0; FULL_LITERALS],
        &mut [0; FULL_NAMES],
    ) {
        Translated::Accepted(_) => Fine,
        Translated::Refused { number, line } => Not(number, line),
    }
}

/// Everything that a solve is handed.
#[derive(Clone)]
struct Given {
    ranges: Vec<i64>,
    primitives: Vec<i64>,
    lengths: Vec<i64>,
    literals: Vec<i64>,
    leading: i64,
    budget: i64,
    point: Vec<i64>,
    work: Vec<i64>,
}

impl Given {
    /// All quantities lead, and the buffers are large enough.
    fn new(ranges: &[i64], primitives: &[i64]) -> Given {
        let leading = ranges.len() as i64 / 2;
        Given {
            ranges: ranges.to_vec(),
            primitives: primitives.to_vec(),
            lengths: Vec::new(),
            literals: Vec::new(),
            leading,
            budget: 1_000,
            point: vec![77; ranges.len() / 2],
            work: vec![77; workspace_need(ranges, leading).1 + 5],
        }
    }

    fn leading(mut self, leading: i64) -> Given {
        self.leading = leading;
        self
    }

    fn clause(mut self, literals: &[i64]) -> Given {
        self.lengths.push(literals.len() as i64 / 3);
        self.literals.extend(literals);
        self
    }

    fn budget(mut self, budget: i64) -> Given {
        self.budget = budget;
        self
    }

    /// Solves and gives back the point too.
    fn solve(&self) -> (Solved, Vec<i64>) {
        let mut after = self.clone();
        let solved = after.solve_in_place();
        (solved, after.point)
    }

    fn solve_in_place(&mut self) -> Solved {
        solve(
            &self.ranges,
            &self.primitives,
            &self.lengths,
            &self.literals,
            self.leading,
            self.budget,
            &mut self.point,
            &mut self.work,
        )
    }

    fn run(&self) -> Solved {
        self.solve().0
    }

    fn gives(&self, answer: Answer, sweeps: i64, point: &[i64]) -> bool {
        self.solve() == (Solved { answer: Ok(answer), sweeps }, point.to_vec())
    }

    fn is_none_after(&self, sweeps: i64) -> bool {
        self.run() == Solved { answer: Ok(Answer::None), sweeps }
    }

    /// Whether one visit of the primitives leaves quantity q with exactly
    /// this range: a clause that excludes it is false in the first sweep, one
    /// that touches its very ends is not.
    fn leaves(&self, q: i64, low: i64, high: i64) -> bool {
        let with = |sense, bound| self.clone().clause(&[q, sense, bound]);
        with(0, low - 1).is_none_after(1)
            && with(1, high + 1).is_none_after(1)
            && !with(0, low).is_none_after(1)
            && !with(1, high).is_none_after(1)
    }
}

const FIRST: &str = "range w 1 10\nrange h 1 10\nmust w * h = 35\nmust w < h";

fn desk_examples(list: &mut List) {
    list.desk(FIRST, "FOUND 6\nw 5\nh 7\n");
    let p1 = [1, 10, 1, 10, 1, 100, 35, 35, -34, 65, -9, 9];
    list.add("P1: n 6, two lead, D 8, workspace 108", workspace_need(&p1, 2) == (8, 108));
    list.add("P1: n 6, all lead, D 27, workspace 336", workspace_need(&p1, 6) == (27, 336));
    list.add("P1: the lists", p1_lists_are(&p1));
    list.desk("range x 0 3\nmust x ^2 = 2", "NONE 3\n");
    list.desk("range x 0 3\nrange y 0 3\nmust x + y = 3", "FOUND 7\nx 0\ny 3\n");
    list.desk("range x 1 4\nmust x * x = 10", "NONE 4\n");
    list.desk("range eightlet -3 -3", "FOUND 1\neightlet -3\n");
    list.desk("range a\nmust a <= 931G", "FOUND 41\na 0\n");
    list.desk("range a\nmust a <= 932G", "REFUSED 24 3\n");
    list.desk("range a\nmust a <= 1000G", "REFUSED 24 3\n");
    list.desk("range a 4G 4G", "FOUND 1\na 4294967296\n");
    list.desk("range a 1K 1K\nrange b 1M 1M\nmust b = a ^2", "FOUND 1\na 1024\nb 1048576\n");
    list.desk("must 1 <= 2", "REFUSED 30 0\n");
    list.verdict("range a\nrange b\nmust a * b <= 5", Fine);
    list.verdict("range a\nrange b\nmust a * b + 1 <= 5", Not(28, 4));
}

fn p1_lists_are(ranges: &[i64]) -> bool {
    let mut lent = ([0; FULL_RANGES], [0; FULL_PRIMITIVES], [0; FULL_LENGTHS], [0; FULL_LITERALS]);
    let mut names = [0; FULL_NAMES];
    let sheet = format!("RUL 1\n{FIRST}\n");
    let translated =
        translate(sheet.as_bytes(), &mut lent.0, &mut lent.1, &mut lent.2, &mut lent.3, &mut names);
    let counts =
        paper::Counts { quantities: 6, declared: 2, primitives: 3, clauses: 3, literals: 3 };
    translated == Translated::Accepted(counts)
        && lent.0.starts_with(ranges)
        && lent.1.starts_with(&[2, 2, 0, 1, 1, 2, 4, 3, 1, 0, 5, 1, 0])
        && lent.2.starts_with(&[1, 1, 1, 0])
        && lent.3.starts_with(&[4, 0, 0, 4, 1, 0, 5, 0, -1, 0])
        && names.starts_with(b"w       h       \0")
}

fn budget_examples(list: &mut List) {
    // x, y, x + y, 3 and the difference of the last two.
    let p3 = Given::new(&[0, 3, 0, 3, 0, 6, 3, 3, -3, 3], &[1, 2, 0, 1, 1, 2, 4, 3])
        .clause(&[4, 0, 0])
        .clause(&[4, 1, 0]);
    list.add("P3", p3.gives(Answer::Found, 7, &[0, 3, 3, 3, 0]));
    let (p4, floor) = p3.clone().budget(5).solve();
    let stopped = Solved { answer: Ok(Answer::Stopped), sweeps: 5 };
    list.add("P4", p4 == stopped && floor[..2] == [0, 2]);
    list.add("P5", p3.clone().budget(0).gives(Answer::Stopped, 0, &[0, 0, 0, 3, -3]));
    list.add("the last allowed sweep may decide", p3.budget(7).run().answer == Ok(Answer::Found));
}

fn narrowing_examples(list: &mut List) {
    let product =
        |z: [i64; 2], x: [i64; 2], y: [i64; 2]| Given::new(&[z, x, y].concat(), &[2, 0, 1, 2]);
    let square = |z: [i64; 2], x: [i64; 2]| Given::new(&[z, x].concat(), &[3, 0, 1, 0]);
    let wide = [-100, 100];
    list.add("P6", product([7, 9], wide, [2, 2]).leaves(1, 4, 4));
    list.add("P7", product([-9, -7], wide, [2, 2]).leaves(1, -4, -4));
    list.add("P8", product([7, 7], wide, [2, 2]).is_none_after(1));
    list.add("P9", square([5, 30], [0, 10]).leaves(1, 3, 5));
    list.add("P10", square([5, 30], [-10, 10]).leaves(1, -5, 5));
    list.add("an end inside stays", square([5, 30], [-1, 10]).leaves(1, -1, 5));
    list.add("P11", product([0, M], [M, M], [M, M]).is_none_after(1));
    let wraps = 4_294_967_296;
    list.add("product that wraps to 0", product([0, M], [wraps; 2], [wraps; 2]).is_none_after(1));
    list.add("square that wraps to 0", square([0, M], [wraps; 2]).is_none_after(1));
    trimming_examples(list);
    list.add("a divisor below 0", product([7, 9], wide, [-2, -2]).leaves(1, -4, -4));
    let both = Given::new(&[-100, 100, -3, 2], &[2, 0, 1, 1]);
    list.add("x times x is no square", both.leaves(0, -6, 9));
}

/// Document 02's zero at the end of a factor's range.
fn trimming_examples(list: &mut List) {
    let wide = [-100, 100];
    let mut leaves = |name: &str, [z, x, y]: [[i64; 2]; 3], after: [[i64; 2]; 3]| {
        let given = Given::new(&[z, x, y].concat(), &[2, 0, 1, 2]);
        let passed = after.iter().zip(0..).all(|(ends, q)| given.leaves(q, ends[0], ends[1]));
        list.add(format!("a zero at an end: {name}"), passed);
    };
    let twelve = [12, 12];
    leaves("low 0", [[7, 9], wide, [0, 2]], [[7, 9], [4, 9], [1, 2]]);
    leaves("high 0", [twelve, wide, [-8, 0]], [twelve, [-12, -2], [-6, -1]]);
    leaves("low 0, z below 0", [[-9, -7], wide, [0, 2]], [[-9, -7], [-9, -4], [1, 2]]);
    leaves("both factors", [twelve, [0, 8], [0, 9]], [twelve, [2, 8], [2, 6]]);
    leaves("0 inside stays", [twelve, wide, [-3, 5]], [twelve, wide, [-3, 5]]);
    leaves("the second alone", [twelve, [0, 20], [-3, 5]], [twelve, [1, 20], [1, 5]]);
    leaves("the second alone, high", [twelve, [-20, 0], [-3, 5]], [twelve, [-20, -1], [-3, -1]]);
    leaves("z has 0", [[0, 9], wide, [0, 2]], [[0, 9], wide, [0, 2]]);
    leaves("z has 0 at its high end", [[-9, 0], wide, [0, 2]], [[-9, 0], wide, [0, 2]]);
    leaves("z has 0 and is 0", [[0, 9], wide, [0, 0]], [[0, 0], wide, [0, 0]]);
    let zero = Given::new(&[1, 9, -100, 100, 0, 0], &[2, 0, 1, 2]);
    list.add("a zero at an end: [0,0] is empty", zero.is_none_after(1));
    let square = Given::new(&[5, 30, 0, 10], &[3, 0, 1, 0]);
    list.add("a zero at an end: not for squares", square.leaves(1, 3, 5));
    list.desk("range s 0 8\nrange w 0 9\nmust s * w = 12", "FOUND 11\ns 2\nw 6\n");
}

fn search_slips(list: &mut List) {
    let half = Given::new(&[-1, 0], &[]);
    list.add("P12, lower part", half.gives(Answer::Found, 2, &[-1]));
    let upper = half.clone().clause(&[0, 1, 0, 0, 1, 0]);
    list.add("P12, upper part", upper.gives(Answer::Found, 3, &[0]));
    let undecided = Given::new(&[0, 3], &[]).clause(&[0, 0, 1, 0, 1, 2]);
    list.add("undecided is not unit", undecided.gives(Answer::Found, 3, &[0]));
    let single = Given::new(&[4, 4], &[]);
    list.add("one value needs a sweep", single.gives(Answer::Found, 1, &[4]));
    list.add("and none is found without", single.clone().budget(0).gives(Answer::Stopped, 0, &[4]));
    let narrowed = Given::new(&[0, 3], &[]).clause(&[0, 1, 3]);
    list.add("a last change asks one sweep more", narrowed.gives(Answer::Found, 2, &[3]));
    list.add("an empty clause", Given::new(&[0, 3], &[]).clause(&[]).is_none_after(1));
    let big = Given::new(&[-M, M, -M, M, -M, M], &[2, 0, 1, 2]);
    list.add("big frames don't vanish", big.run().answer == Ok(Answer::Found));
}

fn solve_limits(list: &mut List) {
    let base = Given::new(&[0, 1, 0, 1], &[1, 0, 1, 1]).clause(&[0, 0, 1]);
    let with = |change: &dyn Fn(&mut Given)| {
        let mut given = base.clone();
        change(&mut given);
        given
    };
    list.sound("base", &base);
    list.refusal("no quantity", &with(&|g| g.ranges.clear()), 1);
    list.refusal("odd", &with(&|g| g.ranges.push(0)), 1);
    list.refusal("129 quantities", &with(&|g| g.ranges.resize(258, 0)), 1);
    list.sound("128 quantities", &Given::new(&[0; 256], &[]));
    list.sound("1 quantity", &Given::new(&[-M, M], &[]));
    let prims = |count: usize| with(&|g| g.primitives = [1, 0, 1, 1].repeat(count));
    list.sound("256 primitives", &prims(256));
    list.refusal("257 primitives", &prims(257), 2);
    list.refusal("not in fours", &with(&|g| g.primitives.push(0)), 2);
    let lengths = |lengths: &[i64], literals: usize| {
        with(&|g| {
            g.lengths = lengths.to_vec();
            g.literals = [0, 0, 1].repeat(literals);
        })
    };
    list.sound("256 clauses", &lengths(&[1; 256], 256));
    list.refusal("257 clauses", &lengths(&[1; 257], 257), 2);
    list.sound("1,024 literals", &lengths(&[1_024], 1_024));
    list.refusal("1,025 literals", &lengths(&[1_025], 1_025), 2);
    list.refusal("length below 0", &lengths(&[1, -1], 0), 2);
    list.refusal("lengths that wrap to 0", &lengths(&[1 << 62; 4], 0), 2);
    list.refusal("a literal too many", &lengths(&[1], 2), 2);
    list.refusal("a literal too few", &lengths(&[2], 1), 2);
    list.refusal("literals not in threes", &with(&|g| g.literals.push(0)), 2);
    let range = |low, high| with(&|g| g.ranges[..2].copy_from_slice(&[low, high]));
    list.sound("ends at M", &{
        let mut given = range(-M, M);
        given.work = vec![0; 1_000];
        given
    });
    list.refusal("low above high", &range(1, 0), 3);
    list.refusal("below -M", &range(-M - 1, 0), 3);
    list.refusal("above M", &range(0, M + 1), 3);
    list.refusal("far ends", &range(i64::MIN, i64::MAX), 3);
    let primitive = |numbers: [i64; 4]| with(&|g| g.primitives = numbers.to_vec());
    for good in [[1, 1, 1, 1], [2, 0, 0, 1], [3, 1, 1, 0]] {
        list.sound("primitive", &primitive(good));
    }
    for bad in [
        [0, 0, 0, 0],
        [4, 0, 0, 0],
        [1, 2, 0, 0],
        [1, 0, -1, 0],
        [2, 0, 0, 2],
        [3, 0, 0, 1],
        [3, 0, 2, 0],
        [3, 0, 0, -1],
        [1, 1 << 32, 0, 0],
        [(1 << 32) + 1, 0, 0, 0],
    ] {
        list.refusal(&format!("{bad:?}"), &primitive(bad), 4);
    }
    let literal = |numbers: [i64; 3]| with(&|g| g.literals = numbers.to_vec());
    for good in [[1, 0, M], [0, 1, -M]] {
        list.sound("literal", &literal(good));
    }
    for bad in [
        [2, 0, 0],
        [-1, 0, 0],
        [0, 2, 0],
        [0, -1, 0],
        [0, 0, M + 1],
        [0, 1, -M - 1],
        [0, 0, i64::MIN],
    ] {
        list.refusal(&format!("{bad:?}"), &literal(bad), 5);
    }
    list.sound("budget 10^9", &base.clone().budget(1_000_000_000));
    list.refusal("budget above", &base.clone().budget(1_000_000_001), 6);
    list.refusal("budget below 0", &base.clone().budget(-1), 6);
    list.refusal("point too long", &with(&|g| g.point.push(0)), 7);
    list.refusal("point too short", &with(&|g| g.point.truncate(1)), 7);
    list.sound("workspace just enough", &with(&|g| g.work.truncate(12)));
    list.refusal("workspace too short", &with(&|g| g.work.truncate(11)), 7);
}

/// Refusal 8 on both sides, and the room that leading quantities need.
fn leading_limits(list: &mut List) {
    let base = Given::new(&[0, 1, 0, 1, 4, 4], &[]);
    for leading in [i64::MIN, -1, 0, 1, 4, 5, (1 << 32) + 2, i64::MAX] {
        list.refusal(&format!("leading {leading}"), &base.clone().leading(leading), 8);
    }
    list.sound("the rest is one value", &base.clone().leading(2));
    list.sound("all lead", &base.clone().leading(3));
    let three = [0, 1, 0, 1, 0, 1];
    let two_lead = |primitives: &[i64]| Given::new(&three, primitives).leading(2);
    for good in [
        &[1, 2, 0, 1][..],
        &[1, 2, 1, 1],
        &[1, 0, 2, 1],
        &[1, 0, 1, 2],
        &[2, 2, 0, 1],
        &[3, 2, 1, 0],
        &[2, 0, 2, 2, 3, 2, 0, 0],
    ] {
        list.sound(&format!("{good:?} defines 2"), &two_lead(good));
    }
    for bad in [
        &[][..],
        &[2, 0, 2, 1],
        &[2, 0, 1, 2],
        &[3, 0, 2, 0],
        &[1, 2, 2, 0],
        &[1, 2, 0, 2],
        &[1, 0, 2, 2],
        &[2, 2, 2, 0],
        &[3, 2, 2, 0],
        &[1, 1, 0, 0],
    ] {
        list.refusal(&format!("{bad:?} does not define 2"), &two_lead(bad), 8);
    }
    let one_leads = |primitives: &[i64]| Given::new(&three, primitives).leading(1);
    list.sound("1 of 0, 2 of 1", &one_leads(&[1, 2, 0, 1, 1, 1, 0, 0]));
    list.refusal("1 of 2, which is higher", &one_leads(&[1, 2, 0, 0, 1, 1, 0, 2]), 8);
    let short = |mut given: Given| {
        given.work.clear();
        given
    };
    list.refusal("8 before 7", &short(base.clone().leading(1)), 8);
    list.refusal("7 alone", &short(base.clone().leading(2)), 7);
    list.refusal("6 before 8", &base.leading(0).budget(-1), 6);
    let p1 = [1, 10, 1, 10, 1, 100, 35, 35, -34, 65, -9, 9];
    let equations = [2, 2, 0, 1, 1, 2, 4, 3, 1, 0, 5, 1];
    for (leading, need) in [(2, 108), (6, 336)] {
        let with_room = |room: usize| {
            let mut given = Given::new(&p1, &equations).leading(leading);
            given.work.resize(room, 77);
            given
        };
        list.sound(&format!("P1 with {leading} leading in {need}"), &with_room(need));
        list.refusal(&format!("P1 with {leading} leading"), &with_room(need - 1), 7);
    }
}

/// What the buffers hold afterwards.
fn buffer_rules(list: &mut List) {
    let buffers = |given: &Given| {
        let mut after = given.clone();
        after.solve_in_place();
        (after.point, after.work)
    };
    let found = Given::new(&[0, 3], &[]);
    list.add("found", buffers(&found) == (vec![0], vec![0, 0, 0, 0, 0, 0, 77, 77, 77, 77, 77]));
    let none = found.clone().clause(&[]);
    list.add("none", buffers(&none) == (vec![77], vec![0, 0, 0, 0, 0, 0, 77, 77, 77, 77, 77]));
    let stopped = found.clone().budget(0);
    list.add("stopped", buffers(&stopped) == (vec![0], vec![0, 0, 0, 0, 0, 0, 77, 77, 77, 77, 77]));
    let refused = found.budget(-1);
    list.add("refused", buffers(&refused) == (vec![77], vec![77; 11]));
}

fn text_limits(list: &mut List) {
    list.whole("", Not(20, 0));
    list.whole("RUL 1\nrange a", Not(20, 0));
    list.whole("RUL 1\nrange a\t\n", Not(20, 0));
    list.whole("RUL 1\r\nrange a\n", Not(20, 0));
    list.whole("RUL 2\nrange a\u{7f}\n", Not(20, 0));
    list.whole("RUL 2\nrange é\n", Not(20, 0));
    let (full, over) = (padded("0"), padded("10"));
    list.add("4,096 bytes", full.len() == 4_096 && verdict_of(full.as_bytes()) == Fine);
    list.add("4,097 bytes", over.len() == 4_097 && verdict_of(over.as_bytes()) == Not(20, 0));
    for bad in [
        "\n",
        "RUL\n",
        "RUL \n",
        "RUL  1\n",
        "RUL 1 \n",
        " RUL 1\n",
        "rul 1\n",
        "RUL 01\n",
        "RUL 00\n",
        "RUL +1\n",
        "RUL 1K\n",
        "RUL 02\n",
        "RUL 2K\n",
        "RUL 65536\n",
        "RUL 65538\n",
        "RUL 18446744073709551617\n",
        "RUL -1\n",
        "RUL1\n",
        "( ( ( ( ( ( ( ( ( ( ( ( ( ( ( ( (\n",
    ] {
        list.whole(bad, Not(21, 1));
    }
    for other in
        ["RUL 0\n", "RUL 3\nx\n", "RUL 65535\n", "RUL 10\n", "RUL 12\n", "RUL 20\n", "RUL 21\n"]
    {
        list.whole(other, Not(22, 1));
    }
    list.whole("RUL 3\nrange a\u{7f}\n", Not(20, 0));
    list.whole("RUL 1\n", Not(30, 0));
    list.whole("RUL 2\n", Not(30, 0));
    list.whole("RUL 1\n\n", Not(24, 2));
    list.whole("RUL 1\nrange a\n\n", Not(24, 3));
}

/// The default range of each version. [0, high] is halved k times, where
/// 2^k is the least power above high: 2^20 and 2^18.
fn versions(list: &mut List) {
    for (version, top, halvings) in [(1, 1_000_000, 20), (2, 200_000, 18)] {
        list.desk_of(version, "range a", &format!("FOUND {}\na 0\n", 1 + halvings));
        // Each halving of a moves the difference too.
        let body = "range a\nmust a <= 931G";
        list.desk_of(version, body, &format!("FOUND {}\na 0\n", 1 + 2 * halvings));
        list.desk_of(version, &format!("range a\nmust a >= {top}"), &format!("FOUND 3\na {top}\n"));
        list.desk_of(version, &format!("range a\nmust a > {top}"), "NONE 1\n");
        // a times this many is exactly M, or one step more.
        let most = M / top;
        list.verdict_of(version, &format!("range a\nmust a * {most} >= 0"), Fine);
        list.verdict_of(version, &format!("range a\nmust a * {} >= 0", most + 1), Not(28, 3));
        list.verdict_of(version, &format!("range a {top} {top}\nrange b\nrange b"), Not(25, 4));
        list.verdict_of(version, "range a 4294967296 4G\nrange b 4G 4294967296", Fine);
        list.verdict_of(version, "range a 0 932G", Not(24, 2));
    }
    let three = "range w\nrange h\nrange s 1 4\nmust w * h * s <= 5";
    list.verdict_of(1, three, Not(28, 5));
    list.verdict_of(2, three, Fine);
    list.verdict_of(1, "range a\nrange b\nmust a * b + 1 <= 5", Not(28, 4));
    list.verdict_of(2, "range a\nrange b\nmust a * b + 1 <= 5", Fine);
    list.verdict_of(2, "range a\nmust a * a * a <= 5", Not(28, 3));
}

/// A sound sheet of 4,095 bytes and those of `high`. Brackets fill it up, as
/// they cost four bytes a pair and make no helper.
fn padded(high: &str) -> String {
    let mut sheet = format!("RUL 1\nrange abc 0 {high}\n");
    for rule in 0..30 {
        let left = 15;
        let right = if rule == 0 { 14 } else { 15 };
        let nested = |pairs: usize| format!("{}abc{}", "( ".repeat(pairs), " )".repeat(pairs));
        sheet += &format!("must {} <= {}\n", nested(left), nested(right));
    }
    sheet
}

fn line_limits(list: &mut List) {
    let open = |count: usize| "( ".repeat(count);
    let nested = |count: usize| format!("range a\nmust {}a{} = 1", open(count), " )".repeat(count));
    list.verdict(&nested(16), Fine);
    list.verdict(&nested(17), Not(23, 3));
    list.verdict(&format!("nonsense  {}", open(16)), Not(24, 2));
    list.verdict(&format!("nonsense  {}", open(17)), Not(23, 2));
    list.verdict(&format!("{}(", ") ) ) ( ".to_string() + &open(17)), Not(24, 2));
    list.verdict(&format!("{}(", ") ) ) ( ".to_string() + &open(18)), Not(23, 2));
    list.verdict(&"((".repeat(20), Not(24, 2));
    list.verdict("range a\nmust a < 1\nrange a 2 1", Not(24, 4));
    list.verdict("range a\nmust a < 1\nrange b", Not(24, 4));
    list.verdict("range a 0K 0G", Fine);
    list.verdict("range a -931G 953674M", Fine);
    list.verdict("range a -976562500K 976562500K", Fine);
    list.verdict("range a -932G 0", Not(24, 2));
    list.verdict("range a 0 953675M", Not(24, 2));
    list.verdict("range a 0 976562501K", Not(24, 2));
    list.verdict("range a 0 17179869185G", Not(24, 2));
    list.verdict("range a 1024 1K\nrange b 1048576 1M\nrange c 1073741824 1G", Fine);
    list.verdict("range a 1K 1023", Not(26, 2));
    list.verdict("range a 1M 1048575", Not(26, 2));
    list.verdict("range a 1G 1073741823", Not(26, 2));
    list.verdict("range a -0 1", Not(24, 2));
    list.verdict("range a -0K 1", Not(24, 2));
    list.verdict("range a - 5 1", Not(24, 2));
    list.verdict("range a\nmust a < -5", Not(24, 3));
    list.verdict("range a\nrange a 2 1", Not(25, 3));
    list.verdict("range a\nmust b < 1", Not(25, 3));
    list.verdict("must b < 1", Not(25, 2));
    list.verdict("range a 1 1", Fine);
    list.verdict("range a 2 1", Not(26, 2));
    list.verdict("range a\nmust a = 1 or a = 2", Not(27, 3));
    list.verdict("range a\nif a != 1 then a = 2", Not(27, 3));
    list.verdict("range a\nif a != 1 and a != 2 then a < 2", Not(27, 3));
    list.verdict("range a\nif a = 1 and a = 3 then a = 2 or a != 5 or a != 6", Fine);
    list.verdict("range a\nmust 1000000000000 + 1 > 0 or zz <", Not(24, 3));
    list.verdict("range a\nmust 1000000000000 + 1 > 0 or zz < 1", Not(25, 3));
    list.verdict("range a\nmust 1000000000000 + 1 > 0 or 1 = 1 or 2 = 2", Not(27, 3));
    list.verdict("range a\nmust 1000000000000 + 1 > 0", Not(28, 3));
    list.verdict("range a\nmust 1000000000000 + 0 > 0", Fine);
    list.verdict("range a -1000000000000 0\nmust a <= 0", Fine);
    list.verdict("range a -1000000000000 0\nmust a <= 1", Not(28, 3));
    list.verdict("range a 0 1000001\nmust a ^2 >= 0", Not(28, 3));
    list.verdict("range a -1000000 1000000\nmust a ^2 >= 0 and", Not(24, 3));
    list.verdict("range a -1000000 1000000\nmust a * a >= 0", Fine);
    list.verdict("range a -1000000 1000000\nmust a - a >= 0", Fine);
    list.verdict("range a 4294967296 4294967296\nmust a * a >= 0", Not(28, 3));
    list.verdict("range a\nmust 1000000000000 + 1 > 0\nnonsense", Not(28, 3));
    quantity_limits(list);
}

fn quantity_limits(list: &mut List) {
    let name = |index: usize| {
        let letter = |v: usize| char::from(b'a' + (v % 26) as u8);
        format!("q{}{}", letter(index / 26), letter(index))
    };
    let declared = |count: usize| {
        let lines: Vec<String> = (0..count).map(|i| format!("range {} 0 1", name(i))).collect();
        lines.join("\n")
    };
    list.verdict(&declared(128), Fine);
    list.verdict(&declared(129), Not(29, 130));
    list.verdict(&format!("{}\nrange qaa", declared(128)), Not(25, 130));
    list.verdict(&format!("{}\nrange zz 2 1", declared(128)), Not(26, 130));
    list.verdict(&format!("{}\nmust qaa < qab", declared(127)), Fine);
    list.verdict(&format!("{}\nmust qaa < 1", declared(127)), Not(29, 129));
    list.verdict(&format!("{}\nmust qaa < 1", declared(126)), Fine);
    list.verdict(
        &format!("{}\nmust qaa < 1 or 1000000000000 + 1 > 0", declared(128)),
        Not(28, 130),
    );
    list.verdict(&format!("{}\nmust qaa < qab", declared(128)), Not(29, 130));
    // 64 quantities with D 63 need exactly 8,192 numbers; one value more
    // somewhere is too many.
    let tight = |last: usize| {
        let ones: Vec<String> = (0..63).map(|i| format!("range {} 0 1", name(i))).collect();
        format!("{}\nrange zz 0 {last}", ones.join("\n"))
    };
    let desk = |body: String| answer(format!("RUL 1\n{body}\n").as_bytes());
    list.add("8,192 numbers are enough", desk(tight(0)).starts_with(b"FOUND 64\nqaa 0\n"));
    list.add("8,320 are not to be had", desk(tight(1)) == b"REFUSED 7 0\n");
}

fn lent_list_limits(list: &mut List) {
    let sizes = [FULL_RANGES, FULL_PRIMITIVES, FULL_LENGTHS, FULL_LITERALS, FULL_NAMES];
    let lent = |sizes: [usize; 5]| {
        translate(
            b"",
            &mut vec![0; sizes[0]],
            &mut vec![0; sizes[1]],
            &mut vec![0; sizes[2]],
            &mut vec![0; sizes[3]],
            &mut vec![0; sizes[4]],
        )
    };
    list.add("lists of full size", lent(sizes) == Translated::Refused { number: 20, line: 0 });
    list.add(
        "longer lists",
        lent(sizes.map(|s| s + 1)) == Translated::Refused { number: 20, line: 0 },
    );
    for short in 0..5 {
        let mut sizes = sizes;
        sizes[short] -= 1;
        let passed = lent(sizes) == Translated::Refused { number: 19, line: 0 };
        list.add(format!("list {short} a number short"), passed);
    }
}

fn line_calls(list: &mut List) {
    for (text, line, span) in [
        ("", 0, (0, 0)),
        ("", 1, (0, 0)),
        ("\n", 1, (0, 0)),
        ("\n", 2, (1, 1)),
        ("ab\ncd\n", 0, (6, 6)),
        ("ab\ncd\n", 1, (0, 2)),
        ("ab\ncd\n", 2, (3, 5)),
        ("ab\ncd\n", 3, (6, 6)),
        ("ab\ncd", 2, (3, 5)),
        ("ab\ncd", usize::MAX, (5, 5)),
    ] {
        list.add(
            format!("line {line} of {text:?}"),
            paper::line_span(text.as_bytes(), line) == span,
        );
    }
}

#[cfg(test)]
mod tests {
    #[test]
    fn every_case_passes() {
        for case in super::all() {
            assert!(case.passed, "{}", case.name);
        }
    }
}
