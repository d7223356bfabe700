//! The line that a run's route is drawn as, its bends rounded, by the pieces of the proved planner.

use crate::yards::linked::{bend, piece};
use crate::yards::{Place, Tables};

/// East and north of a drawn point, in centimetres that need not be whole.
pub type Spot = (f64, f64);

pub fn spot(p: Place) -> Spot {
    (p.0.into(), p.1.into())
}

/// The points of a piece of a run's route in order, nine of a bend; none after the last piece.
fn points(t: &Tables, run: u32, number: u32) -> Vec<Spot> {
    let (mut kind, mut six, mut nine) = ([0], [0.0; 6], [0.0; 18]);
    let mut answer = piece(t, run, number, &mut kind, &mut six);
    let shown = match kind {
        [1] => &six[..4],
        [2] => {
            answer = bend(t, run, number, &mut kind, &mut nine);
            &nine[..]
        }
        _ => &[],
    };
    assert_eq!(answer, 0, "the tables that a replay leaves are right");
    shown.chunks(2).map(|p| (p[0], p[1])).collect()
}

/// The line that a run's route is drawn as: its pieces in order, each from where the one before finished.
pub fn line(t: &Tables, run: u32) -> Vec<Spot> {
    let mut line = vec![];
    for piece in (0..).map(|number| points(t, run, number)).take_while(|piece| !piece.is_empty()) {
        line.pop();
        line.extend(piece);
    }
    line
}
