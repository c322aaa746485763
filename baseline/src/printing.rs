//! "The printing program", and example 13 in bits.

use crate::forcings::{measured, read_forcing};
use crate::mesh::{open, STATE_RUNS};
use crate::records::{Answer, Clock, Parameters};
use crate::saves::{save, save_length};
use crate::step::step;

/// "mesh T: (0,0), (100,0), (0,100), triangle 0 1 2, h 8, kinds 0, dt 1, tau,
/// K, f 0". No request speaks of advection there: it is off.
pub(crate) const X: [i32; 3] = [0, 100, 0];
pub(crate) const Y: [i32; 3] = [0, 0, 100];
pub(crate) const TRI: [u16; 3] = [0, 1, 2];
pub(crate) const H: [f64; 3] = [8.0; 3];
pub(crate) const KIND: [u8; 3] = [0; 3];
pub(crate) const P: Parameters = Parameters {
    dt: 1.0,
    tau: 0.0,
    k: 0.0,
    f: 0.0,
    advection: false,
};

/// How many nodes it has.
const NODES: usize = 3;

/// A forcing for it.
pub(crate) type Forcing = [f64; 1 + 2 * NODES];

/// A run on mesh T.
pub(crate) struct Run {
    pub(crate) state: [f64; STATE_RUNS * NODES],
    clock: Clock,
}

/// An answer of number 0, or else the refusal.
fn accepted(answer: Answer) -> Result<(), Answer> {
    if answer.number == 0 {
        Ok(())
    } else {
        Err(answer)
    }
}

/// The forcing that a text is, where this sequence number is due in kind 10.
fn read(text: &[u8], expected: u32) -> Result<Forcing, Answer> {
    let mut room = [0.0; 1 + 2 * NODES];
    accepted(read_forcing(&mut room, text, expected))?;
    Ok(room)
}

impl Run {
    /// The cold run.
    pub(crate) fn open() -> Result<Run, Answer> {
        let mut state = [0.0; STATE_RUNS * NODES];
        let (answer, clock) = open(&mut state, &X, &Y, &TRI, &H, &KIND, P);
        accepted(answer)?;
        Ok(Run { state, clock })
    }

    pub(crate) fn step(&mut self, forcing: &Forcing) -> Result<(), Answer> {
        let mut next = [0.0; STATE_RUNS * NODES];
        let (answer, clock) = step(
            &mut next,
            &mut [0.0; 5 * NODES],
            &mut [0; NODES],
            &self.state,
            forcing,
            &X,
            &Y,
            &TRI,
            &H,
            &KIND,
            P,
            self.clock,
        );
        accepted(answer)?;
        self.state = next;
        self.clock = clock;
        Ok(())
    }

    fn save(&self) -> Result<Vec<u8>, Answer> {
        let mut text = vec![0; save_length(NODES)];
        let (state, clock) = (&self.state, self.clock);
        accepted(save(&mut text, state, &X, &Y, &TRI, &H, &KIND, P, clock))?;
        Ok(text)
    }
}

/// The printing program: what it writes to standard output for what it is given
/// on standard input.
///
/// It takes its input forcing by forcing and steps by each before it looks at the
/// next: where the next two bytes are `10`, one line, with the number of forcings
/// before it as the sequence number that is due; else four lines. It "prints one
/// save at the end. At a refusal it prints only `refused R at P` and a line feed,
/// R the number and P the input line from 0": the line that a refused reading
/// names, and "for a refused step the program's P is its first line".
pub fn print(input: &[u8]) -> Vec<u8> {
    match printed(input) {
        Ok(text) => text,
        Err((number, line)) => format!("refused {number} at {line}\n").into_bytes(),
    }
}

/// The save at the end, or R and P. A forcing's lines are cut from the input by
/// the lengths that are due, as a save's are in a load. A line that is shorter or
/// longer is refused by 20 where it stands, so that no line after it is looked at,
/// and to cut at line feeds would print the same.
fn printed(input: &[u8]) -> Result<Vec<u8>, (u32, usize)> {
    let (mut rest, mut line, mut taken) = (input, 0, 0_u32);
    let mut run = Run::open().map_err(|refusal| (refusal.number, line))?;
    while !rest.is_empty() {
        let (lines, bytes) = measured(rest, NODES);
        let (text, after) = rest.split_at(bytes.min(rest.len()));
        let forcing =
            read(text, taken).map_err(|refusal| (refusal.number, line + refusal.place))?;
        run.step(&forcing)
            .map_err(|refusal| (refusal.number, line))?;
        (rest, line, taken) = (after, line + lines, taken.saturating_add(1));
    }
    run.save().map_err(|refusal| (refusal.number, line))
}

/// Example 13 in bits: "T cold, forcing 0, 1/64, 0" and "A second step with
/// forcing 0, 0, 0". What is written, line by line:
///
/// - lines 1 to 18: after the first step, earlier z of nodes 0, 1, 2, then z, U,
///   V, Wx and Wy of each;
/// - lines 19 to 36: the same after the second step;
/// - line 37: the clock's step number, a decimal.
///
/// Lines 1 to 36 are binary64 patterns of 16 lower-case hexadecimal digits.
/// Both steps are accepted; a refusal would come back in place of the text.
pub fn example_13() -> Result<String, Answer> {
    let mut run = Run::open()?;
    let mut text = String::new();
    for wx in [1.0 / 64.0, 0.0] {
        run.step(&[0.0, wx, wx, wx, 0.0, 0.0, 0.0])?;
        for number in run.state {
            text += &format!("{:016x}\n", number.to_bits());
        }
    }
    text += &format!("{}\n", run.clock.step);
    Ok(text)
}
