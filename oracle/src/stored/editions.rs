//! What A6 moves (02): each threshold of edition 2 from both sides, and roofs that are inclined under edition 1.

use super::examples::{of, CLOSED};
use super::List;
use crate::slopes::{Near, NEAR};
use crate::solids::Shape;

/// Half the width of a roof and its length in millimetres.
const HALF: f32 = 4000.0;
const LONG: f32 = 9000.0;

/// A roof that rises so much from its eaves to its ridge, with gables and a floor: closed, of whole numbers.
fn roof(rise: f32) -> Shape {
    let end = |y: f32| [[0.0, y, 0.0], [2.0 * HALF, y, 0.0], [HALF, y, rise]];
    let ids = [[0, 2, 5], [0, 5, 3], [1, 4, 5], [1, 5, 2], [0, 3, 4], [0, 4, 1], [0, 1, 2], [3, 5, 4]];
    Shape { vertices: [end(0.0), end(LONG)].concat().concat(), ids: ids.concat() }
}

/// The same upside down: its slopes look down, and its floor is a deck.
fn keel(rise: f32) -> Shape {
    roof(rise).scaled([1.0, 1.0, -1.0]).moved([0.0, 0.0, rise]).flipped()
}

/// In millimetres, to the nearest. At 30 degrees the z is 0.86603, which is above 0.866; at 60 it is 0.5, and here a little more.
const ROOFS: [(u32, f32); 7] =
    [(25, 1865.0), (28, 2127.0), (30, 2309.0), (32, 2499.0), (60, 6928.0), (62, 7523.0), (65, 8578.0)];
const KEELS: [(u32, f32); 2] = [(28, 2127.0), (62, 7523.0)];

pub(super) fn editions(list: &mut List) {
    let [.., top, side] = &NEAR;
    for (at, Near { under, just: [low, high], above, .. }) in [("0.866", top), ("0.5", side)] {
        for (name, direction) in [
            (format!("a step under {at}"), under),
            (format!("of {at} and of its opposite, from under the decimal"), low),
            (format!("of {at} and of its opposite, from above the decimal"), high),
            (format!("a step above {at}"), above),
        ] {
            list.mesh("open_shell", format!("a6: nz {name}"), &of(1.0, &Shape::facing(*direction)));
        }
    }
    for (degrees, rise) in ROOFS {
        list.mesh(CLOSED, format!("a6: a roof of {degrees} degrees"), &of(0.001, &roof(rise)));
    }
    for (degrees, rise) in KEELS {
        list.mesh(CLOSED, format!("a6: a keel of {degrees} degrees"), &of(0.001, &keel(rise)));
    }
}
