//! Request #102, "Friction with the right water column": the K of a step, and
//! what H in m made of it where p keeps H'.

use super::wanted::{each, of, Reached};
use crate::script::{Call, Script};

/// The sorts of K that row 9 lets through.
const SORTS: [&str; 3] = ["K +0", "K -0", "K above 0"];

/// An accepted step that has other bits than H' in m would give.
pub(crate) const TELLS: &str = "H in m tells";

/// The third of such steps in a row.
pub(crate) const TELLS_ON: &str = "H in m tells for the third time";

/// A node that moves, with m beyond p in size: friction alone makes it faster,
/// which it never does with the same water column in both.
const HASTENS: &str = "m beyond p in size";

/// An accepted U' and V' are at most 20 and p is at most 301, so that what they
/// are worked out from is rounded by far less than this.
const BEYOND_ROUNDING: f64 = 1e-9;

fn sort_of(k: f64) -> &'static str {
    match k {
        0.0 => SORTS[usize::from(k.is_sign_negative())],
        _ => SORTS[2],
    }
}

/// What friction works with at a node: (dt·K)/(2·H), the same with H', and the
/// larger of U and V in size. Held land is at rest whatever friction does.
struct Rubbed {
    r: f64,
    r_new: f64,
    speed: f64,
}

impl Rubbed {
    fn of(script: &Script, z_new: &[f64], node: usize) -> Rubbed {
        let (n, p) = (script.x.0.len(), script.p);
        let value = |run: usize| script.state.0[run * n + node];
        let over = |z: f64| (p.dt * p.k) / (2.0 * (script.h.0[node] + z));
        let speed = match script.kind.0[node] {
            2 => 0.0,
            _ => value(2).abs().max(value(3).abs()),
        };
        Rubbed {
            r: over(value(1)),
            r_new: over(z_new[node]),
            speed,
        }
    }

    fn tells(&self) -> bool {
        (self.r - self.r_new).abs() * self.speed > BEYOND_ROUNDING
    }

    fn hastens(&self) -> bool {
        self.speed > 0.0 && self.r - 1.0 > 1.0 + self.r_new
    }
}

/// What is said of an accepted step.
pub(crate) fn accepted(script: &Script) -> Vec<String> {
    let n = script.x.0.len();
    let nodes: Vec<Rubbed> = (0..n)
        .map(|node| Rubbed::of(script, &script.next.0[n..], node))
        .collect();
    let mut met = vec![String::from(sort_of(script.p.k))];
    if nodes.iter().any(Rubbed::tells) {
        met.push(String::from(TELLS));
    }
    if nodes.iter().any(Rubbed::hastens) {
        met.push(String::from(HASTENS));
    }
    met
}

/// What is said of a 13 by the U' or V' of a node, whose side of its range is
/// known.
pub(crate) fn refused(script: &Script, z_new: &[f64], node: usize, side: &str) -> Vec<String> {
    let mut met = vec![format!("{side}, {}", sort_of(script.p.k))];
    if Rubbed::of(script, z_new, node).hastens() {
        met.push(String::from(HASTENS));
    }
    met
}

/// All that steps must reach.
pub(crate) fn all_conditions() -> Vec<Reached> {
    let mut all = of(Call::Step, 0, &SORTS);
    all.extend(of(Call::Step, 0, &[TELLS, TELLS_ON, HASTENS]));
    let sides = ["U' below,", "U' above,", "V' below,", "V' above,"];
    all.extend(each(Call::Step, 13, &sides, &SORTS[2..]));
    all.extend(of(Call::Step, 13, &[HASTENS]));
    all
}
