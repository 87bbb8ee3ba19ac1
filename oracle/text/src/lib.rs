//! Cases and answers as text, one to a line; FORMAT.md describes them.

use std::fmt::Write as _;
use std::io::{BufRead, BufReader, Write as _};

/// What every lent float holds before a call.
pub const KEPT: f64 = f64::from_bits(0x4010_dead_0000_beef);
/// What every lent whole number holds before a call.
pub const KEPT_WHOLE: u64 = 987_654_321;

/// The arguments that fit, criterion and search share.
#[derive(Clone, Debug, Default)]
pub struct Problem {
    pub code: u64,
    pub doses: Vec<f64>,
    pub grams: Vec<f64>,
    pub groups: Vec<u64>,
    pub group_count: u64,
    pub effects: Vec<u64>,
    pub starts: Vec<f64>,
    pub lower: Vec<f64>,
    pub upper: Vec<f64>,
    pub group_lower: Vec<f64>,
    pub group_upper: Vec<f64>,
}

impl Problem {
    /// Readings of one group, no finite bounds.
    pub fn one_group(code: u64, readings: &[(f64, f64)], effects: &[u64], starts: &[f64]) -> Self {
        let below = vec![f64::NEG_INFINITY; starts.len()];
        let above = vec![f64::INFINITY; starts.len()];
        Problem {
            code,
            doses: readings.iter().map(|r| r.0).collect(),
            grams: readings.iter().map(|r| r.1).collect(),
            groups: vec![0; readings.len()],
            group_count: 1,
            effects: effects.to_vec(),
            starts: starts.to_vec(),
            lower: below.clone(),
            upper: above.clone(),
            group_lower: below,
            group_upper: above,
        }
    }
}

/// The normal blocks of a direction; matrices row after row, one after the other.
#[derive(Clone, Debug, Default)]
pub struct Blocks {
    pub p: usize,
    pub k: usize,
    pub groups: usize,
    pub fixed: Vec<f64>,
    pub cross: Vec<f64>,
    pub random: Vec<f64>,
    pub fixed_rhs: Vec<f64>,
    pub random_rhs: Vec<f64>,
}

#[derive(Clone, Debug)]
pub enum Case {
    Exp(f64),
    Ln(f64),
    Sqrt(f64),
    GhOrder(u64),
    Curve {
        code: u64,
        values: Vec<f64>,
        dose: f64,
    },
    Start {
        code: u64,
        doses: Vec<f64>,
        grams: Vec<f64>,
        n_values: usize,
    },
    Fit {
        problem: Problem,
        theta: Vec<f64>,
        max_rounds: u64,
        n_values: usize,
        n_effects_out: usize,
    },
    Criterion {
        problem: Problem,
        theta: Vec<f64>,
        max_rounds: u64,
        reml: u64,
        n_agq: u64,
        n_values: usize,
        n_effects_out: usize,
    },
    Search {
        problem: Problem,
        max_rounds: u64,
        reml: u64,
        n_agq: u64,
        max_narrowings: u64,
    },
    Solve {
        n: usize,
        a: Vec<f64>,
        b: Vec<f64>,
    },
    Inverse(Vec<f64>),
    Cholesky(Vec<f64>),
    Direction {
        blocks: Blocks,
        damping: f64,
    },
}

/// A refusal shows the lent outputs as they stand after the call, so each form has them all.
#[derive(Clone, Debug)]
pub enum Answer {
    Float(f64),
    Whole(u64),
    Curve {
        number: u64,
        mean: [f64; 5],
    },
    Start {
        number: u64,
        values: Vec<f64>,
    },
    Fit {
        number: u64,
        values: Vec<f64>,
        effects: Vec<f64>,
        rss: f64,
        converged: u64,
        rounds: u64,
        trials: u64,
    },
    Criterion {
        number: u64,
        values: Vec<f64>,
        effects: Vec<f64>,
        criterion: f64,
        sigma2: f64,
    },
    Search {
        number: u64,
        theta: f64,
        criterion: f64,
        narrowings: u64,
        converged: u64,
        fits: u64,
    },
    /// What the linear algebra found, if it found any.
    Found(Option<Vec<f64>>),
}

// ---- reading

struct Words<'a>(std::str::Split<'a, char>);

type Read<T> = Result<T, String>;

pub fn read_float(word: &str) -> Read<f64> {
    if word == "nan" {
        return Ok(f64::NAN);
    }
    if word.len() != 16 {
        return Err(format!("not a float: '{word}'"));
    }
    u64::from_str_radix(word, 16)
        .map(f64::from_bits)
        .map_err(|_| format!("not a float: '{word}'"))
}

impl<'a> Words<'a> {
    fn word(&mut self) -> Read<&'a str> {
        self.0.next().ok_or_else(|| "too few words".to_string())
    }

    fn whole(&mut self) -> Read<u64> {
        let word = self.word()?;
        word.parse().map_err(|_| format!("not a whole number: '{word}'"))
    }

    fn float(&mut self) -> Read<f64> {
        read_float(self.word()?)
    }

    fn floats(&mut self) -> Read<Vec<f64>> {
        (0..self.whole()?).map(|_| self.float()).collect()
    }

    fn wholes(&mut self) -> Read<Vec<u64>> {
        (0..self.whole()?).map(|_| self.whole()).collect()
    }

    fn floats_of(&mut self, length: usize) -> Read<Vec<f64>> {
        let list = self.floats()?;
        if list.len() == length {
            Ok(list)
        } else {
            Err(format!("{} floats, not {length}", list.len()))
        }
    }

    /// A whole number from 1 to `most`.
    fn size(&mut self, most: usize) -> Read<usize> {
        let n = self.length()?;
        if (1..=most).contains(&n) {
            Ok(n)
        } else {
            Err(format!("{n} is not between 1 and {most}"))
        }
    }

    fn blocks(&mut self) -> Read<Blocks> {
        let (p, k, groups) = (self.size(4)?, self.size(2)?, self.size(32)?);
        Ok(Blocks {
            p,
            k,
            groups,
            fixed: self.floats_of(p * p)?,
            cross: self.floats_of(groups * p * k)?,
            random: self.floats_of(groups * k * k)?,
            fixed_rhs: self.floats_of(p)?,
            random_rhs: self.floats_of(groups * k)?,
        })
    }

    fn length(&mut self) -> Read<usize> {
        Ok(self.whole()? as usize)
    }

    fn problem(&mut self) -> Read<Problem> {
        Ok(Problem {
            code: self.whole()?,
            doses: self.floats()?,
            grams: self.floats()?,
            groups: self.wholes()?,
            group_count: self.whole()?,
            effects: self.wholes()?,
            starts: self.floats()?,
            lower: self.floats()?,
            upper: self.floats()?,
            group_lower: self.floats()?,
            group_upper: self.floats()?,
        })
    }

    fn end(mut self) -> Read<()> {
        match self.0.next() {
            None => Ok(()),
            Some(word) => Err(format!("more than the case has: '{word}'")),
        }
    }
}

impl Case {
    pub fn read(line: &str) -> Read<Case> {
        let mut words = Words(line.split(' '));
        let w = &mut words;
        let case = match w.word()? {
            "exp" => Case::Exp(w.float()?),
            "ln" => Case::Ln(w.float()?),
            "sqrt" => Case::Sqrt(w.float()?),
            "gh_order" => Case::GhOrder(w.whole()?),
            "curve" => Case::Curve {
                code: w.whole()?,
                values: w.floats()?,
                dose: w.float()?,
            },
            "start" => Case::Start {
                code: w.whole()?,
                doses: w.floats()?,
                grams: w.floats()?,
                n_values: w.length()?,
            },
            "fit" => Case::Fit {
                problem: w.problem()?,
                theta: w.floats()?,
                max_rounds: w.whole()?,
                n_values: w.length()?,
                n_effects_out: w.length()?,
            },
            "criterion" => Case::Criterion {
                problem: w.problem()?,
                theta: w.floats()?,
                max_rounds: w.whole()?,
                reml: w.whole()?,
                n_agq: w.whole()?,
                n_values: w.length()?,
                n_effects_out: w.length()?,
            },
            "search" => Case::Search {
                problem: w.problem()?,
                max_rounds: w.whole()?,
                reml: w.whole()?,
                n_agq: w.whole()?,
                max_narrowings: w.whole()?,
            },
            "solve" => {
                let n = w.size(4)?;
                Case::Solve {
                    n,
                    a: w.floats_of(n * n)?,
                    b: w.floats_of(n)?,
                }
            }
            "inverse" => Case::Inverse(w.floats_of(4)?),
            "cholesky" => Case::Cholesky(w.floats_of(4)?),
            "direction" => Case::Direction {
                blocks: w.blocks()?,
                damping: w.float()?,
            },
            other => return Err(format!("no operation '{other}'")),
        };
        words.end()?;
        Ok(case)
    }
}

// ---- writing

/// A line in the making: words with one space between them.
#[derive(Default)]
pub struct Line(pub String);

impl Line {
    pub fn word(&mut self, word: &str) -> &mut Self {
        if !self.0.is_empty() {
            self.0.push(' ');
        }
        self.0.push_str(word);
        self
    }

    pub fn whole(&mut self, n: u64) -> &mut Self {
        let separator = if self.0.is_empty() { "" } else { " " };
        let _ = write!(self.0, "{separator}{n}");
        self
    }

    pub fn float(&mut self, x: f64) -> &mut Self {
        if x.is_nan() {
            return self.word("nan");
        }
        const DIGITS: &[u8; 16] = b"0123456789abcdef";
        let bits = x.to_bits();
        if !self.0.is_empty() {
            self.0.push(' ');
        }
        for i in (0..16).rev() {
            self.0.push(DIGITS[(bits >> (4 * i)) as usize & 15] as char);
        }
        self
    }

    pub fn floats(&mut self, list: &[f64]) -> &mut Self {
        self.whole(list.len() as u64);
        for &x in list {
            self.float(x);
        }
        self
    }

    pub fn wholes(&mut self, list: &[u64]) -> &mut Self {
        self.whole(list.len() as u64);
        for &n in list {
            self.whole(n);
        }
        self
    }

    fn problem(&mut self, p: &Problem) -> &mut Self {
        self.whole(p.code)
            .floats(&p.doses)
            .floats(&p.grams)
            .wholes(&p.groups)
            .whole(p.group_count)
            .wholes(&p.effects)
            .floats(&p.starts)
            .floats(&p.lower)
            .floats(&p.upper)
            .floats(&p.group_lower)
            .floats(&p.group_upper)
    }

    pub fn case(&mut self, case: &Case) -> &mut Self {
        match case {
            Case::Exp(x) => self.word("exp").float(*x),
            Case::Ln(x) => self.word("ln").float(*x),
            Case::Sqrt(x) => self.word("sqrt").float(*x),
            Case::GhOrder(n) => self.word("gh_order").whole(*n),
            Case::Curve { code, values, dose } => self.word("curve").whole(*code).floats(values).float(*dose),
            Case::Start {
                code,
                doses,
                grams,
                n_values,
            } => self
                .word("start")
                .whole(*code)
                .floats(doses)
                .floats(grams)
                .whole(*n_values as u64),
            Case::Fit {
                problem,
                theta,
                max_rounds,
                n_values,
                n_effects_out,
            } => self
                .word("fit")
                .problem(problem)
                .floats(theta)
                .whole(*max_rounds)
                .whole(*n_values as u64)
                .whole(*n_effects_out as u64),
            Case::Criterion {
                problem,
                theta,
                max_rounds,
                reml,
                n_agq,
                n_values,
                n_effects_out,
            } => self
                .word("criterion")
                .problem(problem)
                .floats(theta)
                .whole(*max_rounds)
                .whole(*reml)
                .whole(*n_agq)
                .whole(*n_values as u64)
                .whole(*n_effects_out as u64),
            Case::Search {
                problem,
                max_rounds,
                reml,
                n_agq,
                max_narrowings,
            } => self
                .word("search")
                .problem(problem)
                .whole(*max_rounds)
                .whole(*reml)
                .whole(*n_agq)
                .whole(*max_narrowings),
            Case::Solve { n, a, b } => self.word("solve").whole(*n as u64).floats(a).floats(b),
            Case::Inverse(a) => self.word("inverse").floats(a),
            Case::Cholesky(a) => self.word("cholesky").floats(a),
            Case::Direction { blocks, damping } => self
                .word("direction")
                .whole(blocks.p as u64)
                .whole(blocks.k as u64)
                .whole(blocks.groups as u64)
                .floats(&blocks.fixed)
                .floats(&blocks.cross)
                .floats(&blocks.random)
                .floats(&blocks.fixed_rhs)
                .floats(&blocks.random_rhs)
                .float(*damping),
        }
    }

    pub fn answer(&mut self, answer: &Answer) -> &mut Self {
        match answer {
            Answer::Float(x) => self.float(*x),
            Answer::Whole(n) => self.whole(*n),
            Answer::Curve { number, mean } => {
                self.whole(*number);
                for &x in mean {
                    self.float(x);
                }
                self
            }
            Answer::Start { number, values } => self.whole(*number).floats(values),
            Answer::Fit {
                number,
                values,
                effects,
                rss,
                converged,
                rounds,
                trials,
            } => self
                .whole(*number)
                .floats(values)
                .floats(effects)
                .float(*rss)
                .whole(*converged)
                .whole(*rounds)
                .whole(*trials),
            Answer::Criterion {
                number,
                values,
                effects,
                criterion,
                sigma2,
            } => self
                .whole(*number)
                .floats(values)
                .floats(effects)
                .float(*criterion)
                .float(*sigma2),
            Answer::Search {
                number,
                theta,
                criterion,
                narrowings,
                converged,
                fits,
            } => self
                .whole(*number)
                .float(*theta)
                .float(*criterion)
                .whole(*narrowings)
                .whole(*converged)
                .whole(*fits),
            Answer::Found(Some(list)) => self.whole(1).floats(list),
            Answer::Found(None) => self.whole(0),
        }
    }
}

/// Answers the cases of the standard input on the standard output, line by line: the case, ` = `, the answer.
/// The case is printed as it stands after the call, so that an argument written by mistake shows. What is written is
/// handed on before each wait for more cases. `after` may add lines of its own.
pub fn serve(mut answer: impl FnMut(&Case) -> Answer, mut after: impl FnMut(&Case, &mut String)) {
    let mut input = BufReader::with_capacity(1 << 16, std::io::stdin().lock());
    let mut output = std::io::BufWriter::with_capacity(1 << 16, std::io::stdout().lock());
    let mut read = String::new();
    let mut number = 0u64;
    loop {
        if input.buffer().is_empty() {
            output.flush().expect("the standard output can be written");
        }
        read.clear();
        if input.read_line(&mut read).expect("the standard input is text") == 0 {
            break;
        }
        number += 1;
        let line = read.trim_end_matches('\n');
        let case = Case::read(line).unwrap_or_else(|fault| {
            output.flush().ok();
            eprintln!("line {number}: {fault}");
            std::process::exit(2);
        });
        let answered = answer(&case);
        let mut out = Line::default();
        out.case(&case).word("=").answer(&answered);
        out.0.push('\n');
        after(&case, &mut out.0);
        output
            .write_all(out.0.as_bytes())
            .expect("the standard output can be written");
    }
    output.flush().expect("the standard output can be written");
}
