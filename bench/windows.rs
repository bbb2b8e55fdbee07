// A strip's readings through a window, and a plain window of our own to hold the port's against: libwing has none.
use crate::inputs::Dice;
use crate::{Part, Work};
use std::collections::VecDeque;
use std::hint::black_box;
use whistleloam::{raw, Window};

const WIDTH: usize = 256;
/// How many figures a row has: held, sum, mean, rest, top.
const ROW: usize = 5;

pub fn random(n: usize) -> Vec<i16> {
    let mut d = Dice(10);
    (0..n).map(|_| d.bits() as i16).collect()
}

/// From the greatest to the least and again: the largest of the window leaves at every reading.
pub fn falling(n: usize) -> Vec<i16> {
    (0..n).map(|i| (32767 - (i % 65536) as i32) as i16).collect()
}

/// The last readings in a VecDeque, with their sum kept up.
struct Plain {
    kept: VecDeque<i16>,
    sum: i32,
}

impl Plain {
    fn new() -> Plain {
        Plain { kept: VecDeque::with_capacity(WIDTH), sum: 0 }
    }

    fn reading(&mut self, x: i16) -> [i32; ROW] {
        if self.kept.len() == WIDTH {
            self.sum -= i32::from(self.kept.pop_front().unwrap_or(0));
        }
        self.kept.push_back(x);
        self.sum += i32::from(x);
        let held = self.kept.len() as i32;
        // With `copied` many readings are compared at a time; without it one, which takes five times as long.
        let top = self.kept.iter().copied().max().unwrap_or(i16::MIN);
        [held, self.sum, self.sum.div_euclid(held), self.sum.rem_euclid(held), top.into()]
    }

    /// A row for each reading.
    fn readings(&mut self, xs: &[i16], out: &mut [i32]) {
        for (x, row) in xs.iter().zip(out.chunks_exact_mut(ROW)) {
            row.copy_from_slice(&self.reading(*x));
        }
    }
}

/// A window of the port's that holds none.
fn fresh() -> raw::WingWindow {
    *Window::new(WIDTH as u32).unwrap().state()
}

/// By a call for each reading.
fn each_reading(xs: &[i16], out: &mut [i32]) {
    let mut window = fresh();
    for (x, row) in xs.iter().zip(out.chunks_exact_mut(ROW)) {
        let raw::WingTaken { figures: f, window: after } = raw::window_reading(window, *x);
        window = after;
        row.copy_from_slice(&[f.held.into(), f.sum, f.mean.into(), f.rest.into(), f.top.into()]);
    }
}

/// What the last row tells, in one number.
fn last_row(out: &[i32]) -> u64 {
    out[out.len() - ROW..].iter().fold(0, |n, x| n.wrapping_mul(31).wrapping_add(*x as u64))
}

/// Whether all sides lay the same rows. The first readings go twenty times round the window; more would take long under valgrind.
fn same_rows(name: &str, xs: &[i16]) {
    let xs = &xs[..5000];
    let mut rows = vec![0; ROW * xs.len()];
    let (mut at_once, mut single) = (rows.clone(), rows.clone());
    Plain::new().readings(xs, &mut rows);
    raw::window_readings(fresh(), xs, &mut at_once);
    each_reading(xs, &mut single);
    assert!(rows == at_once && rows == single, "{name}: the two sides tell differently");
}

/// Our own window stands in libwing's place: it is scanned for the largest at each reading.
fn plain(xs: Vec<i16>) -> Work {
    let mut rows = vec![0; ROW * xs.len()];
    Box::new(move || {
        Plain::new().readings(black_box(&xs), black_box(&mut rows));
        last_row(&rows)
    })
}

/// The archive's takes all readings in one call.
pub fn following(name: &'static str, xs: Vec<i16>) -> Part {
    same_rows(name, &xs);
    let (libwing, mut out) = (plain(xs.clone()), vec![0; ROW * xs.len()]);
    let port = Box::new(move || {
        raw::window_readings(black_box(fresh()), black_box(&xs), black_box(&mut out));
        last_row(&out)
    });
    Part { wanted: None, name, budget: 1.0, libwing, port }
}

/// A call of the archive for each reading, which goes over the whole window to test it.
pub fn one_by_one(name: &'static str, xs: Vec<i16>) -> Part {
    let (libwing, mut out) = (plain(xs.clone()), vec![0; ROW * xs.len()]);
    let port = Box::new(move || {
        each_reading(black_box(&xs), black_box(&mut out));
        last_row(&out)
    });
    Part { wanted: None, name, budget: 0.0, libwing, port }
}
