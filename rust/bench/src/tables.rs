//! The tables that the benchmark prints, in Markdown.
use crate::timing::geometric_mean;

/// Which list the stand was called with.
#[derive(Clone, Copy, PartialEq, Eq)]
pub enum Kind {
    /// One dense row, then each unit row that the stand reports, until it is proved.
    Users,
    /// The first unit row alone.
    First,
}

const KINDS: [(Kind, &str); 2] = [
    (Kind::Users, "the user's list"),
    (Kind::First, "the first unit row alone"),
];

/// The same in a word, for tables that would else be wider than a screen.
fn short(kind: Kind) -> &'static str {
    match kind {
        Kind::Users => "user's",
        Kind::First => "first",
    }
}

/// The size of the tables with a column for each modulus and basis.
const SHOWN: usize = 64;

/// A stand beside FLINT, with the rows of its list and the microseconds of both.
pub struct Outcome {
    pub kind: Kind,
    pub rows: usize,
    pub proved: bool,
    pub ratio: f64,
    pub micros: f64,
    pub theirs: f64,
}

impl Outcome {
    /// The ratio, in italics where the stand is short.
    pub fn cell(&self) -> String {
        let mark = if self.proved { "" } else { "*" };
        format!("{mark}{:.2}{mark}", self.ratio)
    }
}

/// What was seen of one machine.
pub struct Line {
    pub name: &'static str,
    pub n: usize,
    pub p: u64,
    pub basis: &'static str,
    pub outcomes: Vec<Outcome>,
}

impl Line {
    fn outcome(&self, kind: Kind) -> &Outcome {
        let found = self.outcomes.iter().find(|x| x.kind == kind);
        found.expect("a line has an outcome of each kind")
    }
}

/// A family that does not exist for this p and n.
pub type LeftOut = (&'static str, u64, usize);

pub fn section(title: &str) {
    println!("\n### {title}\n");
}

pub fn table<T: AsRef<str>>(heads: &[T], rows: &[Vec<String>]) {
    let heads: Vec<&str> = heads.iter().map(AsRef::as_ref).collect();
    println!("| {} |", heads.join(" | "));
    println!("|{}", "---|".repeat(heads.len()));
    for row in rows {
        println!("| {} |", row.join(" | "));
    }
}

/// The different values of a list, in their order.
fn different<T: PartialEq>(list: impl Iterator<Item = T>) -> Vec<T> {
    let mut seen = vec![];
    for x in list {
        if !seen.contains(&x) {
            seen.push(x);
        }
    }
    seen
}

/// All tables of the stands.
pub fn stands(lines: &[Line], left_out: &[LeftOut]) {
    if lines.is_empty() {
        return;
    }
    for (kind, list) in KINDS {
        section(&format!(
            "The stand by FLINT: n = {SHOWN}, {list}; short stands in italics"
        ));
        by_machine(lines, |line| line.outcome(kind).cell(), Some(kind));
    }
    section(&format!(
        "Microseconds of the stand, and the rows of its list: n = {SHOWN}, the user's list"
    ));
    let micros = |line: &Line| {
        let x = line.outcome(Kind::Users);
        format!("{:.1} ({})", x.micros, x.rows)
    };
    by_machine(lines, micros, None);
    growth(lines);
    summary(lines);
    show_left_out(left_out);
}

/// A row for each family, a column for each modulus and basis; behind them the worst ratio of a kind, where one is named.
fn by_machine(lines: &[Line], cell: impl Fn(&Line) -> String, worst: Option<Kind>) {
    let lines: Vec<&Line> = lines.iter().filter(|line| line.n == SHOWN).collect();
    let columns = different(lines.iter().map(|line| (line.p, line.basis)));
    let mut heads = vec!["family".to_string()];
    heads.extend(columns.iter().map(|(p, basis)| format!("{p} {basis}")));
    heads.extend(worst.map(|_| "worst".to_string()));
    let mut rows = vec![];
    for name in different(lines.iter().map(|line| line.name)) {
        let of: Vec<&&Line> = lines.iter().filter(|line| line.name == name).collect();
        let mut row = vec![name.to_string()];
        for &column in &columns {
            let found = of.iter().find(|line| (line.p, line.basis) == column);
            row.push(found.map_or(String::new(), |line| cell(line)));
        }
        if let Some(kind) = worst {
            let ratios = of.iter().map(|line| line.outcome(kind).ratio);
            row.push(format!("{:.2}", ratios.fold(0.0, f64::max)));
        }
        rows.push(row);
    }
    table(&heads, &rows);
}

/// Each family's mean ratio at each size.
fn growth(lines: &[Line]) {
    section("By list and size n: geometric means of the ratios over moduli and bases");
    let sizes = different(lines.iter().map(|line| line.n));
    let mut heads = vec!["family".to_string()];
    for (kind, _) in KINDS {
        heads.extend(sizes.iter().map(|n| format!("{}, {n}", short(kind))));
    }
    let mut rows = vec![];
    for name in different(lines.iter().map(|line| line.name)) {
        let mut row = vec![name.to_string()];
        for (kind, _) in KINDS {
            for &n in &sizes {
                let of = lines.iter().filter(|line| line.n == n && line.name == name);
                let ratios: Vec<f64> = of.map(|line| line.outcome(kind).ratio).collect();
                row.push(if ratios.is_empty() {
                    String::new()
                } else {
                    format!("{:.2}", geometric_mean(&ratios))
                });
            }
        }
        rows.push(row);
    }
    table(&heads, &rows);
}

/// Mean and worst for each size and kind of list.
fn summary(lines: &[Line]) {
    section("In short: geometric means over all machines, the worst, and how many are slower than FLINT");
    let heads = [
        "n",
        "list",
        "machines",
        "ratio",
        "worst",
        "family, p, basis",
        "slower",
        "ours, µs",
        "FLINT, µs",
    ];
    let mut rows = vec![];
    for n in different(lines.iter().map(|line| line.n)) {
        for (kind, _) in KINDS {
            let of: Vec<(&Line, &Outcome)> = lines
                .iter()
                .filter(|line| line.n == n)
                .map(|line| (line, line.outcome(kind)))
                .collect();
            let mean = |value: fn(&Outcome) -> f64| {
                let values: Vec<f64> = of.iter().map(|(_, x)| value(x)).collect();
                geometric_mean(&values)
            };
            let worst = of.iter().max_by(|a, b| a.1.ratio.total_cmp(&b.1.ratio));
            let (line, worst) = worst.expect("a size that was seen has lines");
            let slower = of.iter().filter(|(_, x)| 1.0 < x.ratio).count();
            rows.push(vec![
                n.to_string(),
                short(kind).to_string(),
                of.len().to_string(),
                format!("{:.3}", mean(|x| x.ratio)),
                format!("{:.2}", worst.ratio),
                format!("{}, {}, {}", line.name, line.p, line.basis),
                slower.to_string(),
                format!("{:.1}", mean(|x| x.micros)),
                format!("{:.1}", mean(|x| x.theirs)),
            ]);
        }
    }
    table(&heads, &rows);
}

fn show_left_out(left_out: &[LeftOut]) {
    for name in different(left_out.iter().map(|x| x.0)) {
        let of = left_out.iter().filter(|x| x.0 == name);
        let places: Vec<String> = of.map(|(_, p, n)| format!("p = {p}, n = {n}")).collect();
        println!(
            "\nLeft out, as it does not exist there: {name}: {}.",
            places.join("; ")
        );
    }
}
