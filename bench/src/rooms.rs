//! How much a caller has to lend: for each store the fewest places with which the batch call refuses no bar of a series, the other two being as long as may be.
use crate::port::{Columns, Port, ROOM};
use crate::series::Fed;

/// The fewest places of one store, by halving: with more places fewer bars are refused.
fn fewest(port: &mut Port, bars: &Columns, store: usize) -> usize {
    let mut low = 0;
    let mut high = ROOM;
    while low < high {
        let mid = (low + high) / 2;
        let mut rooms = [ROOM; 3];
        rooms[store] = mid;
        if port.feed_all(bars, rooms) == 0 {
            high = mid;
        } else {
            low = mid + 1;
        }
    }
    high
}

/// Of raw, unfinished and stroke bars.
pub fn lent(port: &mut Port, bars: &[Fed]) -> [usize; 3] {
    let columns = Columns::new(bars);
    let failed = port.feed_all(&columns, [ROOM; 3]);
    assert_eq!(failed, 0, "a bar is refused with the largest stores");
    [0, 1, 2].map(|store| fewest(port, &columns, store))
}
