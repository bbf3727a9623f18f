//! How many touches of each class there are, by the analysis's classes alone.

use crate::json::{object, Value};
use crate::paint::{Colour, Painted};
use crate::words::counted;
use veilbuzz::{Class, TOUCHES};

pub struct Summary {
    hit: usize,
    miss: usize,
    kept: usize,
    unsure: usize,
    /// Bare steps that a walk comes to: their first touch is none.
    steps: usize,
    unreached: usize,
}

impl Summary {
    pub fn of(classes: &[[Class; TOUCHES]]) -> Summary {
        let touches = |class| classes.iter().flatten().filter(|each| **each == class).count();
        let nodes = |class| classes.iter().filter(|both| both[0] == class).count();
        Summary {
            hit: touches(Class::Hit),
            miss: touches(Class::Miss),
            kept: touches(Class::Kept),
            unsure: touches(Class::Unsure),
            steps: nodes(Class::None),
            unreached: nodes(Class::Unreached),
        }
    }

    /// How many touches there are of each class that a touch of a reached node can have.
    pub fn touches(&self) -> [(Class, usize); 4] {
        [
            (Class::Hit, self.hit),
            (Class::Miss, self.miss),
            (Class::Kept, self.kept),
            (Class::Unsure, self.unsure),
        ]
    }

    /// Bare steps and unreached nodes, each with its number.
    pub fn nodes(&self) -> [String; 2] {
        [
            counted(self.steps, "bare step"),
            counted(self.unreached, "unreached node"),
        ]
    }

    pub fn write(&self, out: &mut Painted) {
        out.piece("touches", Some(Colour::Bold));
        for (place, (class, touches)) in self.touches().into_iter().enumerate() {
            out.piece(if place == 0 { ": " } else { ", " }, None);
            out.piece(format!("{touches} {class}"), Colour::of(class));
        }
        let [steps, unreached] = self.nodes();
        out.line(format!("; {steps}, {unreached}"));
    }

    pub fn json(&self) -> Value {
        object([
            ("hit", self.hit.into()),
            ("miss", self.miss.into()),
            ("kept", self.kept.into()),
            ("unsure", self.unsure.into()),
            ("bare_steps", self.steps.into()),
            ("unreached_nodes", self.unreached.into()),
        ])
    }
}
