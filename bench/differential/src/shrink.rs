//! The shortest script that still shows a difference: items, then lines of texts, are left out while it does.

use crate::counts::Counts;
use crate::pair::{Difference, Pair};
use crate::script::Item;

/// The items up to the first difference, if there is one.
fn differs(items: &[Item]) -> Option<(usize, Difference)> {
    let mut pair = Pair::new();
    let mut counts = Counts::default();
    items.iter().enumerate().find_map(|(k, item)| {
        let difference = pair.play(item, &mut counts).err()?;
        Some((k + 1, difference))
    })
}

/// Items that differ, made shorter, with what they differ in.
pub fn shortest(items: &[Item]) -> (Vec<Item>, Difference) {
    let (length, difference) = differs(items).expect("the items differ");
    let mut short = (items[..length].to_vec(), difference);
    let mut size = length;
    while size > 0 {
        let before = short.0.len();
        drop_items(&mut short, size);
        if size > 1 || short.0.len() == before {
            size /= 2;
        }
    }
    for k in 0..short.0.len() {
        shorten_text(&mut short, k);
    }
    short
}

/// Leaves out so many items at a time, wherever they still differ without.
fn drop_items(short: &mut (Vec<Item>, Difference), size: usize) {
    let mut from = 0;
    while from < short.0.len() {
        let to = (from + size).min(short.0.len());
        let mut fewer = short.0.clone();
        fewer.drain(from..to);
        if !take_if_differs(short, fewer) {
            from = to;
        }
    }
}

fn take_if_differs(short: &mut (Vec<Item>, Difference), mut fewer: Vec<Item>) -> bool {
    let Some((length, difference)) = differs(&fewer) else {
        return false;
    };
    fewer.truncate(length);
    *short = (fewer, difference);
    true
}

/// Leaves out lines of item k's text, last first, without its names line.
fn shorten_text(short: &mut (Vec<Item>, Difference), k: usize) {
    let Some(Item::Load(text, _) | Item::Program(text)) = short.0.get(k) else {
        return;
    };
    let count = text.split_inclusive(|&c| c == b'\n').count();
    for line in (1..count).rev() {
        let mut fewer = short.0.clone();
        let Some(Item::Load(text, _) | Item::Program(text)) = fewer.get_mut(k) else {
            return;
        };
        let lines = text.split_inclusive(|&c| c == b'\n').enumerate();
        *text = lines
            .filter(|(n, _)| *n != line)
            .flat_map(|(_, l)| l.to_vec())
            .collect();
        take_if_differs(short, fewer);
    }
}
