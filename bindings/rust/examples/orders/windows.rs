//! The window over readings: by the library's own calls on a window of numbers, which is all zeros before the first one is made, and by the
//! crate's `Window` where the numbers make one.
use crate::mirrors::refused;
use crate::words::{count, int16};
use whistleloam::{raw, Figures, Refusal, Window, ROW_FIGURES, WINDOW_MAX};

const ROOM: u64 = 16384;
const UINT16: u64 = 65535;
const UINT32: u64 = u32::MAX as u64;
/// What an output holds before a call: no figure has this value.
const BEFORE: i32 = i32::MIN;

pub struct Watched {
    state: raw::WingWindow,
    window: Option<Window>,
}

impl Default for Watched {
    fn default() -> Watched {
        let state = raw::WingWindow { width: 0, held: 0, next: 0, top: 0, sum: 0, levels: [0; WINDOW_MAX] };
        Watched { state, window: None }
    }
}

/// Numbers with commas between them, or `-` for none.
fn numbers<T>(word: &str, number: impl Fn(&str) -> Option<T>) -> Option<Vec<T>> {
    if word == "-" {
        return Some(Vec::new());
    }
    word.split(',').map(number).collect()
}

fn listed<T: ToString>(numbers: &[T]) -> String {
    if numbers.is_empty() {
        return "-".to_string();
    }
    numbers.iter().map(T::to_string).collect::<Vec<_>>().join(",")
}

fn told(told: raw::WingFigures) -> String {
    match Refusal::check(told.status) {
        Ok(0) => "none".to_string(),
        Ok(_) => {
            let raw::WingFigures { held, sum, mean, rest, top, .. } = told;
            format!("held {held} sum {sum} mean {mean} rest {rest} top {top}")
        }
        Err(why) => refused(why),
    }
}

/// Whether the crate tells the same of a window of its own; without one there is only a refusal.
fn agrees(told: raw::WingFigures, crates: Option<Option<Figures>>) -> bool {
    let own = Figures { held: told.held, sum: told.sum, mean: told.mean, rest: told.rest, top: told.top };
    match crates {
        Some(Some(figures)) => told.status == 1 && figures == own,
        Some(None) => told.status == 0,
        None => told.status < 0,
    }
}

/// The same of rows, each by its figures.
fn agree(rows: &[i32], crates: &[Figures]) -> bool {
    let own: Vec<i32> =
        crates.iter().flat_map(|f| [f.held.into(), f.sum, f.mean.into(), f.rest.into(), f.top.into()]).collect();
    rows == own
}

impl Watched {
    pub fn order(&mut self, name: &str, w: &[&str]) -> Option<String> {
        match (name, w.len()) {
            ("window", 1) => Some(self.make(count(w[0], UINT32)? as u32)),
            ("reading", 1) => Some(self.reading(int16(w[0])?)),
            ("figures", 0) => Some(self.figures()),
            ("readings", 2) => Some(self.readings(&numbers(w[0], int16)?, count(w[1], ROOM)?)),
            ("ring", 0) => Some(self.ring()),
            ("hold", 6) => self.hold(w),
            _ => None,
        }
    }

    fn make(&mut self, width: u32) -> String {
        let (made, window) = (raw::window_make(width), Window::new(width));
        match Refusal::check(made.status) {
            Ok(_) => {
                self.state = made.window;
                self.window = window.ok();
                format!("window {width}{}", self.mark(true))
            }
            Err(why) => refused(why) + self.mark(window.err() == Some(why)),
        }
    }

    fn reading(&mut self, x: i16) -> String {
        let taken = raw::window_reading(self.state, x);
        let same = taken.figures.status == 1 || taken.window == self.state;
        self.state = taken.window;
        let crates = self.window.as_mut().map(|w| Some(w.reading(x)));
        told(taken.figures) + self.mark(same && agrees(taken.figures, crates))
    }

    /// Through the library's call for the room, and through the crate's, which makes room enough.
    fn readings(&mut self, xs: &[i16], room: usize) -> String {
        let mut out = vec![BEFORE; room];
        let followed = raw::window_readings(self.state, xs, &mut out);
        let same = followed.status == 0 || followed.window == self.state;
        self.state = followed.window;
        let laid = room.min(ROW_FIGURES * followed.rows);
        let clean = if out[laid..].iter().all(|n| *n == BEFORE) { "clean" } else { "dirt" };
        match Refusal::check(followed.status) {
            Ok(_) => {
                let crates = self.window.as_mut().map_or(Vec::new(), |w| w.readings(xs));
                let fault = self.mark(same && agree(&out[..laid], &crates));
                format!("rows {} {} {clean}{fault}", followed.rows, listed(&out[..laid]))
            }
            Err(why) => format!("{} {clean}{}", refused(why), self.mark(same)),
        }
    }

    fn figures(&self) -> String {
        let figures = raw::window_figures(self.state);
        told(figures) + self.mark(agrees(figures, self.window.as_ref().map(Window::figures)))
    }

    /// The levels up to the last that is not 0.
    fn ring(&self) -> String {
        let raw::WingWindow { width, held, next, top, sum, levels } = self.state;
        let used = levels.iter().rposition(|level| *level != 0).map_or(0, |last| last + 1);
        let levels = listed(&levels[..used]);
        let fault = self.mark(true);
        format!("width {width} held {held} next {next} top {top} sum {sum} levels {levels}{fault}")
    }

    fn hold(&mut self, w: &[&str]) -> Option<String> {
        let uint16 = |word: &str| count(word, UINT16).map(|n| n as u16);
        let given = numbers(w[5], uint16)?;
        let mut levels = [0; WINDOW_MAX];
        levels.get_mut(..given.len())?.copy_from_slice(&given);
        let (width, held, next, top) = (uint16(w[0])?, uint16(w[1])?, uint16(w[2])?, uint16(w[3])?);
        self.state = raw::WingWindow { width, held, next, top, sum: count(w[4], UINT32)? as u32, levels };
        self.window = Window::from_state(&self.state).ok();
        Some(format!("held{}", self.mark(true)))
    }

    /// A fault where the crate's window is not the library's, or where it has one that the library refuses or none of one that it takes.
    fn mark(&self, agrees: bool) -> &'static str {
        let taken = raw::window_figures(self.state).status != -8;
        let same = self.window.as_ref().map_or(!taken, |w| taken && *w.state() == self.state);
        if agrees && same {
            ""
        } else {
            "!"
        }
    }
}
