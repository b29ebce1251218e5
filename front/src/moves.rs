//! A planned move, and where a body stands on it, for drawing: in f64, and so not bit for bit what a sweep works.

/// A planned move of one body. Its turning centre goes straight from `first` to `last`, while the body turns from one rotation to the other.
///
/// At fraction `t` the rotation is `(1 - t) * first_rotation + t * last_rotation`, brought to length 1. So a turn goes the short way round; its
/// angle grows unevenly, and of a half turn nobody can say which way it goes: never ask for one.
#[derive(Clone, Copy, Debug, PartialEq)]
pub struct Move {
    /// The turning centre, in the frame in which the outline's points are given.
    pub local_center: [f32; 2],
    /// Where the turning centre stands in the hall at fraction 0.
    pub first: [f32; 2],
    /// Where it stands at fraction 1.
    pub last: [f32; 2],
    /// Cosine and sine at fraction 0; counterclockwise is positive where y points to the left of x.
    pub first_rotation: [f32; 2],
    /// Cosine and sine at fraction 1.
    pub last_rotation: [f32; 2],
}

/// Where a body stands: its points turned by cosine and sine, then shifted.
#[derive(Clone, Copy, Debug)]
pub struct Placed {
    pub rotation: [f64; 2],
    pub translation: [f64; 2],
}

impl Placed {
    pub fn place(&self, [x, y]: [f64; 2]) -> [f64; 2] {
        let [c, s] = self.rotation;
        [c * x - s * y + self.translation[0], s * x + c * y + self.translation[1]]
    }
}

impl Move {
    /// None in the middle of a half turn.
    pub fn placed(&self, t: f32) -> Option<Placed> {
        let t = f64::from(t);
        let between = |from: [f32; 2], to: [f32; 2]| [0, 1].map(|i| (1.0 - t) * f64::from(from[i]) + t * f64::from(to[i]));
        let [c, s] = between(self.first_rotation, self.last_rotation);
        let size = c.hypot(s);
        if !(size > 0.0) {
            return None;
        }
        let turned = Placed { rotation: [c / size, s / size], translation: [0.0; 2] };
        let centre = between(self.first, self.last);
        let arm = turned.place(self.local_center.map(f64::from));
        Some(Placed { translation: [centre[0] - arm[0], centre[1] - arm[1]], ..turned })
    }

    /// By how many degrees the body turns, the short way round, 0 to 180.
    pub fn turn(&self) -> f64 {
        let ([c, s], [d, t]) = (self.first_rotation.map(f64::from), self.last_rotation.map(f64::from));
        (c * t - s * d).atan2(c * d + s * t).abs().to_degrees()
    }

    /// How far its turning centre goes.
    pub fn way(&self) -> f64 {
        (f64::from(self.last[0]) - f64::from(self.first[0])).hypot(f64::from(self.last[1]) - f64::from(self.first[1]))
    }
}
