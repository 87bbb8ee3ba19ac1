//! Calls that are refused, each with its number, as C can make them: the types leave some of them out.

use super::ZEROS;

const INF: f64 = f64::INFINITY;

/// The arguments of a fit, a criterion and a search that a refusal depends on.
#[derive(Clone, Copy, Debug)]
pub struct Call {
    pub code: u64,
    pub doses: &'static [f64],
    pub grams: &'static [f64],
    pub groups: &'static [u64],
    pub group_count: u64,
    pub effects: &'static [u64],
    pub starts: &'static [f64],
    pub lower: &'static [f64],
    pub upper: &'static [f64],
    pub group_lower: &'static [f64],
    pub group_upper: &'static [f64],
    pub theta: &'static [f64],
    pub max_rounds: u64,
    pub max_narrowings: u64,
    pub n_values: usize,
    pub n_effects_out: usize,
}

/// Without faults, and with as many groups as there may be.
pub const SOUND: Call = Call {
    code: 3,
    doses: &[1.0, 2.0, 3.0],
    grams: &[4.0, 5.3, 6.0],
    groups: &[0, 31, 0],
    group_count: 32,
    effects: &[0],
    starts: &[8.0, 1.0],
    lower: &[-INF; 2],
    upper: &[INF; 2],
    group_lower: &[-INF; 2],
    group_upper: &[INF; 2],
    theta: &[1.0],
    max_rounds: 10,
    max_narrowings: 3,
    n_values: 2,
    n_effects_out: 32,
};

/// Without faults for a fit and a criterion; a search takes no two effects.
pub const TWO_EFFECTS: Call = Call {
    effects: &[0, 1],
    theta: &[1.0, 0.0, 1.0],
    n_effects_out: 64,
    ..SOUND
};

/// The number of a fault, and what makes it of a call.
type Fault = (u64, fn(&mut Call));

/// Refused by all three.
const OF_ALL: &[Fault] = &[
    (1, |c| c.code = 0),
    (1, |c| c.code = 5),
    (1, |c| c.code = u64::MAX),
    (2, |c| (c.doses, c.grams, c.groups) = (&[], &[], &[])),
    (2, |c| (c.doses, c.grams, c.groups) = (&[1.0; 513], &[1.0; 513], &ZEROS)),
    (2, |c| c.doses = &[1.0, 2.0]),
    (2, |c| c.grams = &[4.0, 5.3]),
    (2, |c| c.groups = &[0, 0]),
    (2, |c| c.groups = &[0; 4]),
    (3, |c| c.group_count = 0),
    (3, |c| c.group_count = 33),
    (3, |c| c.group_count = u64::MAX),
    (4, |c| c.groups = &[0, 32, 0]),
    (4, |c| c.groups = &[0, 0, u64::MAX]),
    (5, |c| c.effects = &[]),
    (5, |c| c.effects = &[2]),
    (5, |c| c.effects = &[u64::MAX]),
    (5, |c| c.effects = &[0, 0]),
    (5, |c| c.effects = &[0, 2]),
    (5, |c| c.effects = &[0, 1, 0]),
    (6, |c| c.starts = &[8.0]),
    (6, |c| c.lower = &[-INF; 4]),
    (6, |c| c.upper = &[INF; 4]),
    (6, |c| c.group_lower = &[-INF; 4]),
    (6, |c| c.group_upper = &[]),
    (7, |c| c.doses = &[1.0, f64::NAN, 2.0]),
    (7, |c| c.grams = &[1.0, -INF, 2.0]),
    (7, |c| c.starts = &[INF, 1.0]),
    (7, |c| c.lower = &[f64::NAN, -INF]),
    (7, |c| c.lower = &[-INF, INF]),
    (7, |c| c.upper = &[-INF, INF]),
    (7, |c| c.group_lower = &[-INF, INF]),
    (7, |c| c.group_upper = &[INF, f64::NAN]),
    (8, |c| (c.lower, c.upper) = (&[9.0, 0.0], &[8.0, 1.0])),
    // Also where no effect stands.
    (8, |c| (c.group_lower, c.group_upper) = (&[0.0, 1.0], &[9.0, 0.5])),
    (10, |c| c.max_rounds = 1001),
    (10, |c| c.max_rounds = u64::MAX),
];

/// Refused by a fit and a criterion: a search reads no theta and writes no list.
const OF_A_FIT: &[Fault] = &[
    (6, |c| c.theta = &[]),
    (6, |c| c.theta = &[1.0, 0.0]),
    (6, |c| c.theta = TWO_EFFECTS.theta),
    (6, |c| c.effects = TWO_EFFECTS.effects),
    (7, |c| c.theta = &[INF]),
    (7, |c| c.theta = &[f64::NAN]),
    (7, |c| {
        (c.effects, c.theta) = (TWO_EFFECTS.effects, &[1.0, f64::NAN, 1.0])
    }),
    (9, |c| c.n_values = 0),
    (9, |c| c.n_values = 1),
    (9, |c| c.n_values = 3),
    (9, |c| c.n_effects_out = 0),
    (9, |c| c.n_effects_out = 31),
    (9, |c| c.n_effects_out = 33),
    (10, |c| {
        *c = Call {
            max_rounds: 1001,
            ..TWO_EFFECTS
        }
    }),
];

const OF_A_SEARCH: &[Fault] = &[
    (10, |c| *c = TWO_EFFECTS),
    (10, |c| c.max_narrowings = 1001),
    (10, |c| c.max_narrowings = u64::MAX),
];

/// A call with every fault, which the lines after the first mend one by one: of the faults left the first counts.
const MENDED: &[Fault] = &[
    (1, |c| {
        *c = Call {
            code: 0,
            doses: &[INF, 2.0, 3.0],
            grams: &[4.0, 5.3],
            groups: &[0, 32, 0],
            group_count: 0,
            effects: &[2],
            starts: &[8.0],
            lower: &[9.0, 0.0],
            upper: &[8.0, 1.0],
            max_rounds: 1001,
            n_values: 0,
            n_effects_out: 0,
            ..SOUND
        }
    }),
    (2, |c| c.code = SOUND.code),
    (3, |c| c.grams = SOUND.grams),
    (4, |c| c.group_count = SOUND.group_count),
    (5, |c| c.groups = SOUND.groups),
    (6, |c| c.effects = SOUND.effects),
    (7, |c| c.starts = SOUND.starts),
    (8, |c| c.doses = SOUND.doses),
    (9, |c| c.lower = SOUND.lower),
    (10, |c| {
        (c.n_values, c.n_effects_out) = (SOUND.n_values, SOUND.n_effects_out)
    }),
];

/// The sound call with each of the faults.
fn each(faults: &[Fault]) -> Vec<(u64, Call)> {
    let with = |&(number, make): &Fault| {
        let mut call = SOUND;
        make(&mut call);
        (number, call)
    };
    faults.iter().map(with).collect()
}

fn mended() -> Vec<(u64, Call)> {
    let mut call = SOUND;
    let next = |&(number, mend): &Fault| {
        mend(&mut call);
        (number, call)
    };
    MENDED.iter().map(next).collect()
}

/// Refused by a fit and a criterion.
pub fn refused_fits() -> Vec<(u64, Call)> {
    [each(OF_ALL), each(OF_A_FIT), mended()].concat()
}

/// Refused by a search.
pub fn refused_searches() -> Vec<(u64, Call)> {
    let mended = mended().into_iter().filter(|&(number, _)| number != 9).collect();
    [each(OF_ALL), each(OF_A_SEARCH), mended].concat()
}

/// The codes of the curves, each with p, the number of its values.
pub const CURVES: [(u64, usize); 4] = [(1, 3), (2, 3), (3, 2), (4, 4)];

const NO_CURVES: [u64; 3] = [0, 5, u64::MAX];

/// Each curve with every number of values up to 5 but p.
fn miscounted() -> impl Iterator<Item = (u64, usize)> {
    let others = |(code, p)| (0..6).filter(move |&n| n != p).map(move |n| (code, n));
    CURVES.into_iter().flat_map(others)
}

/// Refused by a curve: its code, and how many values it gets.
pub fn refused_curves() -> Vec<(u64, (u64, usize))> {
    let unknown = NO_CURVES.into_iter().flat_map(|code| [(1, (code, 0)), (1, (code, 2))]);
    unknown.chain(miscounted().map(|curve| (6, curve))).collect()
}

/// The arguments of a start.
#[derive(Clone, Copy, Debug)]
pub struct Start {
    pub code: u64,
    pub doses: &'static [f64],
    pub grams: &'static [f64],
    pub n_values: usize,
}

/// Without faults, if the curve has so many values.
pub fn start((code, n_values): (u64, usize)) -> Start {
    Start {
        code,
        doses: SOUND.doses,
        grams: SOUND.grams,
        n_values,
    }
}

/// Refused by a start.
pub fn refused_starts() -> Vec<(u64, Start)> {
    let unknown = NO_CURVES.into_iter().map(|code| (1, start((code, 2))));
    let readings: [(&[f64], &[f64]); 4] = [
        (&[1.0, 2.0], SOUND.grams),
        (SOUND.doses, &[]),
        (&[], SOUND.grams),
        (&[1.0; 513], &[1.0; 513]),
    ];
    let unread = CURVES.into_iter().flat_map(|curve| {
        let with = |(doses, grams)| Start {
            doses,
            grams,
            ..start(curve)
        };
        readings.map(|lists| (2, with(lists)))
    });
    let miscounted = miscounted().map(|curve| (9, start(curve)));
    unknown.chain(unread).chain(miscounted).collect()
}
