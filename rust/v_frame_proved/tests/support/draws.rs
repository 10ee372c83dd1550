//! Texts of the items that are taken from both ends of an iterator.

use std::fmt::Debug;

/// Returns the text of an item and of the number of items left: `5/2`, or `-/0` after the last one.
pub fn drawn<I: Debug>(item: &Option<I>, left: usize) -> String {
    item.as_ref().map_or(format!("-/{left}"), |item| format!("{item:?}/{left}"))
}

/// Takes items from the front (`f`) and from the back (`b`), and returns their texts.
pub fn draw<I: DoubleEndedIterator<Item: Debug> + ExactSizeIterator>(mut items: I, sides: &str) -> String {
    let one = |side| {
        let item = if side == 'f' { items.next() } else { items.next_back() };
        assert_eq!(items.size_hint(), (items.len(), Some(items.len())));
        drawn(&item, items.len())
    };
    sides.chars().map(one).collect::<Vec<_>>().join(" ")
}
