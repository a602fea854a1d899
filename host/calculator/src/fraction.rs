//! Exact fractions, as small as the article's percentages need.

/// A fraction that is never rounded; it need not be in lowest terms.
#[derive(Clone, Copy, Debug)]
pub(crate) struct Fraction {
    over: u64,
    under: u64,
}

impl Fraction {
    pub(crate) const fn new(over: u64, under: u64) -> Fraction {
        assert!(under > 0, "a fraction of nothing");
        Fraction { over, under }
    }

    pub(crate) const fn times(self, other: Fraction) -> Fraction {
        Fraction::new(self.over * other.over, self.under * other.under)
    }

    /// The whole number that the fraction is.
    pub(crate) const fn whole(self) -> u64 {
        assert!(
            self.over.is_multiple_of(self.under),
            "the fraction is no whole number"
        );
        self.over / self.under
    }
}

#[cfg(test)]
mod tests {
    use super::Fraction;

    #[test]
    fn a_product_is_exact() {
        let half = Fraction::new(3, 2).times(Fraction::new(1, 3));
        assert_eq!(half.times(Fraction::new(8, 1)).whole(), 4);
    }

    #[test]
    #[should_panic(expected = "no whole number")]
    fn a_part_is_not_rounded() {
        Fraction::new(7, 2).whole();
    }
}
