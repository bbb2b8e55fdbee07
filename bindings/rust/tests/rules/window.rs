//! 02, Job 6: a window over a strip's last readings. What it tells is held against the same figures worked out afresh.
use crate::Dice;
use whistleloam::raw::{self, WingFigures, WingWindow};
use whistleloam::{Figures, Refusal, Window, ROW_FIGURES, WINDOW_MAX};

/// The figures of the last readings of a list, by Rust's own division.
fn afresh(width: usize, list: &[i16]) -> Option<Figures> {
    let last = &list[list.len().saturating_sub(width)..];
    let top = last.iter().copied().max()?;
    let sum: i32 = last.iter().map(|x| i32::from(*x)).sum();
    let held = last.len() as u16;
    let (mean, rest) = (sum.div_euclid(held.into()) as i16, sum.rem_euclid(held.into()) as u16);
    Some(Figures { held, sum, mean, rest, top })
}

/// The readings one by one and at once: both tell the same at each and leave the same window. The figures after the last.
fn follow(width: usize, list: &[i16]) -> Figures {
    let (mut single, mut many) = (Window::new(width as u32).unwrap(), Window::new(width as u32).unwrap());
    let at_once = many.readings(list);
    assert_eq!(at_once.len(), list.len());
    for (n, x) in list.iter().enumerate() {
        let figures = single.reading(*x);
        assert_eq!(Some(figures), afresh(width, &list[..=n]), "width {width}, reading {n}");
        assert_eq!((figures, Some(figures)), (at_once[n], single.figures()), "width {width}, reading {n}");
    }
    assert_eq!(single.state(), many.state(), "width {width}");
    single.figures().unwrap()
}

fn figures(held: u16, sum: i32, mean: i16, rest: u16, top: i16) -> Figures {
    Figures { held, sum, mean, rest, top }
}

#[test]
fn widths_are_1_to_256() {
    for width in [1, 2, 255, 256] {
        let window = Window::new(width).unwrap();
        assert_eq!((window.width(), window.held(), window.figures()), (width as usize, 0, None));
    }
    for width in [0, 257, 65536, 65792, u32::MAX] {
        assert_eq!(Window::new(width).err(), Some(Refusal::WIDTH), "{width}");
        let made = raw::window_make(width);
        assert_eq!((made.status, made.window), (-19, NONE), "{width}");
    }
    assert_eq!(WINDOW_MAX, 256);
}

/// 02: "rounded down, with its exact remainder from 0 to number − 1".
#[test]
fn quotients_go_down() {
    assert_eq!(follow(2, &[-1, 0]), figures(2, -1, -1, 1, 0));
    assert_eq!(follow(2, &[0, -1]), figures(2, -1, -1, 1, 0));
    assert_eq!(follow(3, &[-2, -2, -3]), figures(3, -7, -3, 2, -2));
    assert_eq!(follow(3, &[2, 2, 3]), figures(3, 7, 2, 1, 3));
    assert_eq!(follow(256, &[-1]), figures(1, -1, -1, 0, -1));
    assert_eq!(follow(1, &[5, -7]), figures(1, -7, -7, 0, -7));
}

#[test]
fn the_greatest_sums_fit() {
    assert_eq!(follow(256, &[-32768; 300]), figures(256, -8_388_608, -32768, 0, -32768));
    assert_eq!(follow(256, &[32767; 300]), figures(256, 8_388_352, 32767, 0, 32767));
    assert_eq!(follow(255, &[-32768; 255]), figures(255, -8_355_840, -32768, 0, -32768));
    assert_eq!(follow(2, &[32767, -32768]), figures(2, -1, -1, 1, 32767));
}

/// 02: "the oldest leaves when it is full"; with it the largest, or one of several that are as large.
#[test]
fn the_largest_leaves() {
    assert_eq!(follow(3, &[9, 1, 2, 0]), figures(3, 3, 1, 0, 2));
    assert_eq!(follow(3, &[9, 1, 9, 0]), figures(3, 10, 3, 1, 9));
    assert_eq!(follow(3, &[9, 1, 9, 0, 0, -5]), figures(3, -5, -2, 1, 0));
    assert_eq!(follow(1, &[32767, -32768]), figures(1, -32768, -32768, 0, -32768));
    let falling: Vec<i16> = (0..2000).map(|n| 1000 - n).collect();
    assert_eq!(follow(256, &falling).top, falling[falling.len() - 256]);
}

#[test]
fn random_readings_are_told_as_worked_out_afresh() {
    let mut dice = Dice(0x2545_f491);
    for width in [1, 2, 3, 7, 100, 255, 256] {
        for spread in [2, 50, 65536] {
            let list: Vec<i16> = (0..700).map(|_| (dice.below(spread) as i32 - spread as i32 / 2) as i16).collect();
            follow(width, &list);
        }
    }
}

#[test]
fn readings_go_into_an_output_of_ones_own() {
    let list = [3, -4, 5];
    let mut window = Window::new(2).unwrap();
    let before = *window.state();
    let mut out = [77; 3 * ROW_FIGURES + 2];
    assert_eq!(window.readings_into(&list, &mut out[..3 * ROW_FIGURES - 1]), Err(Refusal::OUTPUT_SHORT));
    assert_eq!((out, *window.state()), ([77; 17], before));
    assert_eq!(window.readings_into(&list, &mut out), Ok(3));
    assert_eq!(out, [1, 3, 3, 0, 3, 2, -1, -1, 1, 3, 2, 1, 0, 1, 5, 77, 77]);
    // Of no readings there is no row, and the window is as it was.
    let after = *window.state();
    assert_eq!((window.readings_into(&[], &mut []), window.readings(&[]), *window.state()), (Ok(0), vec![], after));
}

/// All zeros: a window before one is made.
const NONE: WingWindow = WingWindow { width: 0, held: 0, next: 0, top: 0, sum: 0, levels: [0; 256] };

/// A window of three that has taken four readings: 2 has the place of the first.
fn sound() -> WingWindow {
    let mut window = Window::new(3).unwrap();
    window.readings(&[7, -3, 5, 2]);
    *window.state()
}

/// What no list of readings leaves: 02 gives it 8, at every call, and it comes back as it was.
fn refused(w: WingWindow) {
    let zero = WingFigures { status: -8, held: 0, sum: 0, mean: 0, rest: 0, top: 0 };
    let (taken, mut out) = (raw::window_reading(w, 1), [77; 5]);
    assert_eq!((raw::window_figures(w), taken.figures, taken.window), (zero, zero, w));
    // 8 before 9.
    for room in [0, 5] {
        let followed = raw::window_readings(w, &[1], &mut out[..room]);
        assert_eq!((followed.status, followed.rows, followed.window, out), (-8, 0, w, [77; 5]));
    }
    assert_eq!(Window::from_state(&w).err(), Some(Refusal::STATE));
}

#[test]
fn made_up_windows_are_8() {
    let w = sound();
    assert_eq!((w.width, w.held, w.next, w.top, w.sum), (3, 3, 1, 32773, 3 * 32768 + 4));
    assert_eq!(w.levels[..4], [32770, 32765, 32773, 0]);
    assert_eq!(Window::from_state(&w).unwrap().figures(), Some(figures(3, 4, 1, 1, 5)));
    refused(NONE);
    for width in [0, 1, 2, 4, 256, 257, 65535] {
        refused(WingWindow { width, ..w });
    }
    for held in [0, 1, 2, 4, 65535] {
        refused(WingWindow { held, ..w });
    }
    refused(WingWindow { next: 3, ..w });
    for (top, sum) in [(32772, w.sum), (32774, w.sum), (0, w.sum), (w.top, w.sum - 1), (w.top, w.sum + 1), (w.top, 0)] {
        refused(WingWindow { top, sum, ..w });
    }
    // A place after the ring, with the sum kept up.
    for at in [3, 255] {
        let mut levels = w.levels;
        levels[at] = 1;
        refused(WingWindow { levels, sum: w.sum + 1, ..w });
    }
    // Not full: the next place is the one after the last.
    let mut window = Window::new(4).unwrap();
    window.readings(&[1, 2]);
    let w = *window.state();
    assert_eq!((w.held, w.next), (2, 2));
    for next in [0, 1, 3, 4] {
        refused(WingWindow { next, ..w });
    }
}

/// The same levels with another of them the oldest are a sound window too: another list leaves it.
#[test]
fn a_full_window_may_stand_anywhere_in_its_ring() {
    let w = sound();
    for next in 0..3 {
        let mut window = Window::from_state(&WingWindow { next, ..w }).unwrap();
        assert_eq!(window.figures(), Some(figures(3, 4, 1, 1, 5)));
        let leaves = [2, -3, 5][usize::from(next)];
        assert_eq!(window.reading(0).sum, 4 - leaves);
    }
}
