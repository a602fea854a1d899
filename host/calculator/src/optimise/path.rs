//! The shortest way to make use of what is left of one long.

use super::Market;

/// The length of a way, and then how many steps it has: of two equally long ways the one with fewer steps
/// is taken, which bounds how often the search is repeated.
type Length = (u64, usize);

/// Where a way ends.
#[derive(Clone, Copy)]
pub(super) enum End {
    /// At a short with value left.
    Short(usize),
    /// At a long whose price falls to 0 and which gives up what it had.
    Long(usize),
}

/// All shortest ways from one long, as far as the nearest end.
pub(super) struct Search {
    start: usize,
    end: End,
    length: Length,
    /// How far each long is, and the short before it on the way.
    longs: Vec<Option<(Length, usize)>>,
    /// How far each short is, and the long before it on the way.
    shorts: Vec<Option<(Length, usize)>>,
    settled: Vec<bool>,
}

impl Search {
    pub(super) fn from(market: &Market, start: usize) -> Search {
        let mut search = Search {
            start,
            end: End::Long(start),
            length: (market.longs.price[start], 0),
            longs: vec![None; market.longs.len()],
            shorts: vec![None; market.shorts.len()],
            settled: vec![false; market.shorts.len()],
        };
        search.reach_long(market, start, (0, 0), usize::MAX);
        while let Some((short, length)) = search.nearest() {
            if length >= search.length {
                break;
            }
            if market.shorts.left[short] > 0 {
                search.end = End::Short(short);
                search.length = length;
                break;
            }
            search.settle(market, short, length);
        }
        search
    }

    /// The nearest short that is not settled.
    fn nearest(&self) -> Option<(usize, Length)> {
        let open = self.shorts.iter().zip(&self.settled).enumerate();
        open.filter(|(_, (_, settled))| !**settled)
            .filter_map(|(short, (reached, _))| reached.map(|(length, _)| (short, length)))
            .min_by_key(|(_, length)| *length)
    }

    /// From a short a way goes back to the longs that are paired with it.
    fn settle(&mut self, market: &Market, short: usize, length: Length) {
        self.settled[short] = true;
        for long in 0..market.longs.len() {
            if self.longs[long].is_none() && market.amount[market.cell(long, short)] > 0 {
                self.reach_long(market, long, (length.0, length.1 + 1), short);
            }
        }
    }

    /// From a long a way ends there, or goes on to every short that it may be paired with.
    fn reach_long(&mut self, market: &Market, long: usize, length: Length, before: usize) {
        self.longs[long] = Some((length, before));
        let ending = (length.0 + market.longs.price[long], length.1);
        if ending < self.length {
            self.end = End::Long(long);
            self.length = ending;
        }
        for short in 0..market.shorts.len() {
            let Some(slack) = market.slack(long, short) else {
                continue;
            };
            let reach = (length.0 + slack, length.1 + 1);
            if self.shorts[short].is_none_or(|(known, _)| reach < known) {
                self.shorts[short] = Some((reach, long));
            }
        }
    }

    /// Lowers the prices of the longs and raises those of the shorts that are nearer than the end, so
    /// that every pair on the way just covers.
    pub(super) fn move_prices(&self, market: &mut Market) {
        for (price, reached) in market.longs.price.iter_mut().zip(&self.longs) {
            if let Some((length, _)) = reached {
                *price -= self.length.0.saturating_sub(length.0);
            }
        }
        for (price, reached) in market.shorts.price.iter_mut().zip(&self.shorts) {
            if let Some((length, _)) = reached {
                *price += self.length.0.saturating_sub(length.0);
            }
        }
    }

    /// Moves as much along the way as it can carry.
    pub(super) fn send(&self, market: &mut Market) {
        let most = self.most(market);
        let mut long = match self.end {
            End::Long(long) if long == self.start => return,
            End::Long(long) => {
                market.longs.left[long] += most;
                long
            }
            End::Short(short) => {
                market.shorts.left[short] -= most;
                self.join(market, short, most)
            }
        };
        while long != self.start {
            let short = self.short_before(long);
            let cell = market.cell(long, short);
            market.amount[cell] -= most;
            long = self.join(market, short, most);
        }
        market.longs.left[long] -= most;
    }

    /// Pairs a short with the long before it, and gives that long.
    fn join(&self, market: &mut Market, short: usize, amount: u64) -> usize {
        let long = self.long_before(short);
        let cell = market.cell(long, short);
        market.amount[cell] += amount;
        long
    }

    fn most(&self, market: &Market) -> u64 {
        let mut most = market.longs.left[self.start];
        let mut long = match self.end {
            End::Long(long) => long,
            End::Short(short) => {
                most = most.min(market.shorts.left[short]);
                self.long_before(short)
            }
        };
        while long != self.start {
            let short = self.short_before(long);
            most = most.min(market.amount[market.cell(long, short)]);
            long = self.long_before(short);
        }
        most
    }

    fn long_before(&self, short: usize) -> usize {
        self.shorts[short].expect("a way leads to this short").1
    }

    fn short_before(&self, long: usize) -> usize {
        self.longs[long].expect("a way leads to this long").1
    }
}
