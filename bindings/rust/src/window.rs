use crate::raw;
use crate::{Refusal, ROW_FIGURES};
use std::fmt;

/// What a window tells of the readings that it holds.
#[derive(Clone, Copy, Debug, PartialEq, Eq, Hash)]
pub struct Figures {
    /// How many readings, 1 to the width.
    pub held: u16,
    /// Their sum.
    pub sum: i32,
    /// The sum divided by their number, rounded down.
    pub mean: i16,
    /// The remainder, `sum - mean * held`: 0 to `held - 1`.
    pub rest: u16,
    /// The largest.
    pub top: i16,
}

/// A window over a strip's last readings: it takes them one by one, and the oldest leaves once it is full.
///
/// ```
/// use whistleloam::{Figures, Window};
///
/// let mut window = Window::new(2)?;
/// assert_eq!(window.figures(), None);
/// window.reading(90);
/// window.reading(-1);
/// // The 90 leaves.
/// assert_eq!(window.reading(0), Figures { held: 2, sum: -1, mean: -1, rest: 1, top: 0 });
/// # Ok::<(), whistleloam::Refusal>(())
/// ```
#[derive(Clone)]
pub struct Window {
    state: raw::WingWindow,
}

/// Of a call that is refused only for a window that no list of readings leaves (8). The library made or tested this one, so that it
/// cannot be refused. An archive that does refuse is another library.
fn own<T>(answer: Result<T, Refusal>) -> T {
    answer.unwrap_or_else(|why| panic!("libwing_c.a refuses a window that it made or tested: {why}"))
}

fn told(told: raw::WingFigures) -> Result<Option<Figures>, Refusal> {
    if Refusal::check(told.status)? == 0 {
        return Ok(None);
    }
    let raw::WingFigures { held, sum, mean, rest, top, .. } = told;
    Ok(Some(Figures { held, sum, mean, rest, top }))
}

/// Of a row. Each figure but the sum has 16 bits.
fn row_told(row: &[i32]) -> Figures {
    Figures { held: row[0] as u16, sum: row[1], mean: row[2] as i16, rest: row[3] as u16, top: row[4] as i16 }
}

impl Window {
    /// A window of 1 to 256 readings, which holds none yet. Refused: 19.
    pub fn new(width: u32) -> Result<Window, Refusal> {
        let made = raw::window_make(width);
        Refusal::check(made.status)?;
        Ok(Window { state: made.window })
    }

    /// Takes a reading and tells of the last ones, this one included. It allocates nothing. Each call tests the window; where
    /// many readings are there, [`readings`](Window::readings) tests it once.
    pub fn reading(&mut self, x: i16) -> Figures {
        let taken = raw::window_reading(self.state, x);
        let figures = own(told(taken.figures));
        self.state = taken.window;
        figures.expect("a window tells of a reading that it took")
    }

    /// Takes readings one after the other, and tells after each of the last ones.
    pub fn readings(&mut self, xs: &[i16]) -> Vec<Figures> {
        let mut rows = vec![0; ROW_FIGURES * xs.len()];
        own(self.readings_into(xs, &mut rows));
        rows.chunks_exact(ROW_FIGURES).map(row_told).collect()
    }

    /// The same into an output of yours: a row of five numbers for each reading, in the order of [`Figures`]; how many rows
    /// there are. It allocates nothing. Refused: 9; window and output are as they were then.
    pub fn readings_into(&mut self, xs: &[i16], out: &mut [i32]) -> Result<usize, Refusal> {
        let followed = raw::window_readings(self.state, xs, out);
        Refusal::check(followed.status)?;
        self.state = followed.window;
        Ok(followed.rows)
    }

    /// What the window tells now; none where it holds no reading.
    pub fn figures(&self) -> Option<Figures> {
        own(told(raw::window_figures(self.state)))
    }

    /// The most readings that it holds.
    pub fn width(&self) -> usize {
        self.state.width.into()
    }

    /// How many readings it holds.
    pub fn held(&self) -> usize {
        self.state.held.into()
    }

    /// The window as numbers, to be kept.
    pub fn state(&self) -> &raw::WingWindow {
        &self.state
    }

    /// The window of numbers that were kept. Refused: 8, for a window that no list of readings leaves.
    pub fn from_state(state: &raw::WingWindow) -> Result<Window, Refusal> {
        Refusal::check(raw::window_figures(*state).status)?;
        Ok(Window { state: *state })
    }
}

impl fmt::Debug for Window {
    fn fmt(&self, f: &mut fmt::Formatter) -> fmt::Result {
        write!(f, "Window of width {}, ", self.width())?;
        self.figures().fmt(f)
    }
}
