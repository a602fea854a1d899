//! Fewer lines at the same saving: lines that close a ring are shifted along it until one is empty.

use super::Market;

/// Pairs in use, none of which close a ring. Longs come first among the nodes, then shorts.
struct Forest {
    longs: usize,
    neighbours: Vec<Vec<usize>>,
}

/// Leaves fewer pairs in use than there are holdings, and the same amount on each holding. Every pair in
/// use just covers, so a shift along a ring keeps the saving.
pub(super) fn thin(market: &mut Market) {
    let longs = market.longs.len();
    let mut forest = Forest {
        longs,
        neighbours: vec![Vec::new(); longs + market.shorts.len()],
    };
    for long in 0..longs {
        for short in 0..market.shorts.len() {
            if market.amount[market.cell(long, short)] > 0 {
                forest.add(market, long, longs + short);
            }
        }
    }
}

impl Forest {
    fn add(&mut self, market: &mut Market, long: usize, short: usize) {
        if let Some(way) = self.way(long, short) {
            self.shift(market, &way);
        }
        self.neighbours[long].push(short);
        self.neighbours[short].push(long);
    }

    /// The pairs that lead from one node to another, if any do.
    fn way(&self, from: usize, to: usize) -> Option<Vec<(usize, usize)>> {
        let mut before = vec![usize::MAX; self.neighbours.len()];
        before[from] = from;
        let mut open = vec![from];
        while let Some(node) = open.pop() {
            for &next in &self.neighbours[node] {
                if before[next] == usize::MAX {
                    before[next] = node;
                    open.push(next);
                }
            }
        }
        if before[to] == usize::MAX {
            return None;
        }
        let mut way = Vec::new();
        let mut node = to;
        while node != from {
            way.push((node.min(before[node]), node.max(before[node])));
            node = before[node];
        }
        Some(way)
    }

    /// Closes the ring of a way and a new pair between its ends: the first, third and so on of the way
    /// give, the new pair and the others take, until one is empty.
    fn shift(&mut self, market: &mut Market, way: &[(usize, usize)]) {
        let longs = self.longs;
        let cells: Vec<usize> = way
            .iter()
            .map(|&(long, short)| market.cell(long, short - longs))
            .collect();
        let most = cells
            .iter()
            .step_by(2)
            .map(|cell| market.amount[*cell])
            .min();
        let most = most.expect("a way has a pair");
        let (last, first) = (way[way.len() - 1].0, way[0].1);
        let closing = market.cell(last, first - longs);
        market.amount[closing] += most;
        for (step, cell) in cells.iter().enumerate() {
            if step % 2 == 0 {
                market.amount[*cell] -= most;
            } else {
                market.amount[*cell] += most;
            }
        }
        for (cell, &(long, short)) in cells.iter().zip(way) {
            if market.amount[*cell] == 0 {
                self.neighbours[long].retain(|node| *node != short);
                self.neighbours[short].retain(|node| *node != long);
            }
        }
    }
}
