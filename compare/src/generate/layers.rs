//! Pages and windows for a session over a session.

use super::calls::history;
use super::document::Document;
use super::random::Random;
use crate::interface::{Call, Layers};

const PAGE: usize = 512;

/// Layers that show a document, or something near it; and calls of the upper session.
pub fn layers(random: &mut Random, document: &Document) -> (Layers, Vec<Call>) {
    let before = random.length(0, 1500);
    let behind = random.pick(&[0, 1, 100, PAGE, 700]);
    let mut bytes = random.bytes(before);
    bytes.extend(&document.bytes);
    bytes.extend(random.bytes(behind));
    let (run, pages) = spread(random, &bytes);
    let mut layers = Layers {
        run,
        pages,
        size: bytes.len() as u64,
        start: before as u64,
        shown: document.bytes.len() as u64,
        lower: history(random, document),
    };
    if behind == 0 && random.once_in(2) {
        layers.shown = random.pick(&[layers.shown + 1, u64::MAX, u64::MAX - layers.start, 1 << 63]);
    }
    match random.below(12) {
        0..=2 => move_window(random, &mut layers),
        3 => refuse_length(random, &mut layers),
        4 => refuse_page(random, &mut layers),
        5 => repeat_pages(random, &mut layers),
        _ => (),
    }
    let calls = history(random, document);
    (layers, calls)
}

/// Cuts bytes into pages and lays them in another order into a run, with other pages between and behind them.
fn spread(random: &mut Random, bytes: &[u8]) -> (Vec<u8>, Vec<u16>) {
    let count = bytes.len().div_ceil(PAGE);
    let others = random.index(4);
    let mut places: Vec<u16> = (0..(count + others) as u16).collect();
    random.shuffle(&mut places);
    let rest = random.pick(&[0, 0, 1, 511]);
    let mut run = random.bytes(places.len() * PAGE + rest);
    for (chunk, &page) in bytes.chunks(PAGE).zip(&places) {
        let at = usize::from(page) * PAGE;
        run[at..at + chunk.len()].copy_from_slice(chunk);
    }
    let listed = count + random.index(others + 1);
    places.truncate(listed);
    (run, places)
}

/// A window that begins or ends elsewhere.
fn move_window(random: &mut Random, layers: &mut Layers) {
    let Layers {
        size, start, shown, ..
    } = *layers;
    let near = random.below(3);
    let any = random.number();
    layers.start = random.pick(&[
        start,
        start,
        start,
        start + near,
        start.saturating_sub(near),
        0,
        size,
        size - near,
        size + near,
        u64::MAX,
        u64::MAX - near,
        1 << 63,
        any,
    ]);
    layers.shown = random.pick(&[
        shown,
        shown - near,
        shown.saturating_add(near),
        0,
        1,
        12,
        u64::MAX,
        u64::MAX - near,
        1 << 63,
        any,
    ]);
}

/// Shows a part of the pages, all of them, or more than there are.
fn refuse_length(random: &mut Random, layers: &mut Layers) {
    let all = (layers.pages.len() * PAGE) as u64;
    let near = random.below(600);
    layers.size = random.pick(&[
        all,
        all + 1,
        all + near,
        all.saturating_sub(near),
        u64::MAX,
        u64::MAX - near,
        1 << 63,
    ]);
    if random.once_in(4) {
        layers.pages.clear();
        layers.size = random.below(2);
    }
}

/// Lists a page that is not wholly inside the run, also where its bytes would not be shown.
fn refuse_page(random: &mut Random, layers: &mut Layers) {
    let whole = (layers.run.len() / PAGE) as u64;
    let outside = random.pick(&[whole, whole + 1, 0xffff, 0x8000]) as u16;
    let at = random.length(0, layers.pages.len());
    layers.pages.insert(at, outside);
    if random.once_in(3) {
        layers.pages.push(outside);
    }
    if random.once_in(4) {
        layers.size = u64::MAX;
    }
    if random.once_in(4) {
        let short = random.index(layers.run.len());
        layers.run.truncate(short);
    }
}

/// Lists pages twice, and perhaps shows them twice.
fn repeat_pages(random: &mut Random, layers: &mut Layers) {
    let mut again = layers.pages.clone();
    random.shuffle(&mut again);
    layers.pages.extend(again);
    if random.once_in(2) {
        layers.size = random.below((layers.pages.len() * PAGE) as u64 + 1);
    }
}

/// The bytes that a window shows of pages, where they can be filled: what the lower session's source is.
pub fn shown(layers: &Layers) -> Option<Vec<u8>> {
    let mut joined = Vec::new();
    for &page in &layers.pages {
        let at = usize::from(page) * PAGE;
        joined.extend(layers.run.get(at..at + PAGE)?);
    }
    let joined = joined.get(..usize::try_from(layers.size).ok()?)?;
    let start = usize::try_from(layers.start).ok()?;
    let seen = joined.get(start..).unwrap_or(&[]);
    let size = usize::try_from(layers.shown)
        .unwrap_or(usize::MAX)
        .min(seen.len());
    Some(seen[..size].to_vec())
}
