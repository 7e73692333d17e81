//! Sources: runs, pages, windows, lent sources, and copying.

mod common;

use common::{all, call_fault, fault};
use compare::source::{Pages, Run, Source, Window, copy};

/// Three pages of the bytes 0, 1 and 2, and ten bytes of 3 behind them.
fn run() -> Vec<u8> {
    (0..1546_u32).map(|at| (at / 512) as u8).collect()
}

#[test]
fn a_run_is_its_bytes() {
    let run = Run::new(&[7, 8, 9]);
    assert_eq!(run.length(), 3);
    assert_eq!(
        (run.byte(0), run.byte(2), run.byte(3)),
        (Some(7), Some(9), None)
    );
    assert_eq!(run.byte(u64::MAX), None);
    assert_eq!(Run::new(&[]).length(), 0);
}

#[test]
fn a_part_is_wholly_inside_the_run() {
    let bytes = [7, 8, 9];
    let run = Run::new(&bytes);
    assert_eq!(run.part(1, 2), Some(&bytes[1..3]));
    assert!(std::ptr::eq(run.part(1, 2).unwrap(), &bytes[1..3]));
    assert_eq!(run.part(0, 3), Some(&bytes[..]));
    assert_eq!(run.part(3, 0), Some(&[][..]));
    assert_eq!(run.part(0, 0), Some(&[][..]));
    assert_eq!(run.part(4, 0), None);
    assert_eq!(run.part(2, 2), None);
    assert_eq!(run.part(1, u64::MAX), None);
    assert_eq!(run.part(u64::MAX, 1), None);
}

#[test]
fn pages_are_joined_in_the_lists_order() {
    let run = run();
    let mut pages = Pages::new();
    assert_eq!((pages.length(), pages.byte(0)), (0, None));
    pages.fill(&run, &[2, 0, 2, 1], 2000).unwrap();
    assert_eq!(pages.length(), 2000);
    let seen = [0, 511, 512, 1023, 1024, 1535, 1536, 1999].map(|at| pages.byte(at));
    assert_eq!(seen, [2, 2, 0, 0, 2, 2, 1, 1].map(Some));
    assert_eq!((pages.byte(2000), pages.byte(u64::MAX)), (None, None));
}

#[test]
fn a_refused_fill_leaves_the_old_pages() {
    let run = run();
    let mut pages = Pages::new();
    pages.fill(&run, &[1], 3).unwrap();
    assert_eq!(pages.fill(&run, &[0, 1], 1025), Err(call_fault(27, 0)));
    assert_eq!(
        pages.fill(&run, &[9], 513),
        Err(call_fault(27, 0)),
        "27 comes before 28"
    );
    assert_eq!(pages.fill(&run, &[], 1), Err(call_fault(27, 0)));
    assert_eq!(
        pages.fill(&run, &[0, 3], 1024),
        Err(fault(28, 1, 0, 4, None))
    );
    assert_eq!(
        pages.fill(&run, &[0, 1, 65535, 3], 5),
        Err(fault(28, 2, 0, 4, None))
    );
    assert_eq!(pages.fill(&run, &[3], 0), Err(fault(28, 0, 0, 4, None)));
    assert_eq!(
        pages.fill(&run[..511], &[0], 0),
        Err(fault(28, 0, 0, 4, None))
    );
    assert_eq!(all(&pages), [1, 1, 1]);
    pages.fill(&run, &[0, 2], 1024).unwrap();
    assert_eq!((pages.length(), pages.byte(512)), (1024, Some(2)));
    pages.fill(&[], &[], 0).unwrap();
    assert_eq!(pages.length(), 0);
}

#[test]
fn a_window_shows_what_is_there() {
    let run = Run::new(&[5, 6, 7, 8]);
    assert_eq!(all(&Window::new(run, 1, 2)), [6, 7]);
    assert_eq!(all(&Window::new(run, 0, 4)), [5, 6, 7, 8]);
    assert_eq!(all(&Window::new(run, 2, 9)), [7, 8]);
    assert_eq!(all(&Window::new(run, 4, 1)), []);
    assert_eq!(all(&Window::new(run, u64::MAX, u64::MAX)), []);
    let window = Window::new(run, 1, 2);
    assert_eq!((window.byte(1), window.byte(2)), (Some(7), None));
    let window = Window::new(run, u64::MAX, u64::MAX);
    assert_eq!(
        (window.byte(0), window.byte(5), window.byte(u64::MAX)),
        (None, None, None)
    );
    let inner = Window::new(Window::new(&run, 1, 3), 1, 9);
    assert_eq!((all(&inner), inner.byte(2)), (vec![7, 8], None));
}

#[test]
fn a_copy_fills_the_front_of_a_buffer() {
    let run = Run::new(&[5, 6]);
    let mut buffer = [1; 4];
    copy(&run, &mut buffer).unwrap();
    assert_eq!(buffer, [5, 6, 1, 1]);
    let mut exact = [1; 2];
    copy(&&run, &mut exact).unwrap();
    assert_eq!(exact, [5, 6]);
    let mut short = [1; 1];
    assert_eq!(copy(&run, &mut short), Err(call_fault(26, 0)));
    assert_eq!(short, [1]);
    copy(&Pages::new(), &mut []).unwrap();
}
