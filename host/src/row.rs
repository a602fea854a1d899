//! A holding or a trade in numbers, and the record of these numbers in a day book's list.

/// The numbers of a holding, or of a trade: a description and a value. They are judged whatever they are.
///
/// In the list of [`raw::margin_add`](crate::raw::margin_add) a record has them in this order, each as eight
/// little-endian bytes.
///
/// ```
/// use margin_host::Row;
///
/// let bond = Row {
///     side: 0,
///     kind: 0,
///     issuer: 7,
///     maturity: 2030_06_24,
///     value: 1_000,
///     currency: 0,
///     rating: 2,
/// };
/// let record = bond.to_bytes();
/// assert_eq!(record[24..32], 2030_06_24_u64.to_le_bytes());
/// assert_eq!(Row::from_bytes(record), bond);
/// ```
#[derive(Clone, Copy, Debug, Default, PartialEq, Eq, Hash)]
pub struct Row {
    /// 0 long, 1 short.
    pub side: u64,
    /// 0 bond or debenture, 1 stripped coupon, 2 residual.
    pub kind: u64,
    /// 0 Canada, 1 to 10 a province, 11 the United States, 12 the United Kingdom, 100 to 355 a corporation.
    pub issuer: u64,
    /// The maturity, YYYYMMDD.
    pub maturity: u64,
    /// Market value in Canadian cents.
    pub value: u64,
    /// 0 CAD, 1 USD, 2 GBP.
    pub currency: u64,
    /// Of a corporation 0 single A or higher, 1 lower; of a government 2.
    pub rating: u64,
}

impl Row {
    /// The bytes of a record.
    pub const LENGTH: usize = 56;

    /// The numbers in the order of a record.
    #[must_use]
    pub const fn to_numbers(self) -> [u64; 7] {
        let Row {
            side,
            kind,
            issuer,
            maturity,
            value,
            currency,
            rating,
        } = self;
        [side, kind, issuer, maturity, value, currency, rating]
    }

    /// The row of numbers in the order of a record.
    #[must_use]
    pub const fn from_numbers(numbers: [u64; 7]) -> Row {
        let [side, kind, issuer, maturity, value, currency, rating] = numbers;
        Row {
            side,
            kind,
            issuer,
            maturity,
            value,
            currency,
            rating,
        }
    }

    /// The record of these numbers.
    #[must_use]
    pub fn to_bytes(self) -> [u8; Row::LENGTH] {
        let mut record = [0; Row::LENGTH];
        for (part, number) in record.as_chunks_mut().0.iter_mut().zip(self.to_numbers()) {
            *part = number.to_le_bytes();
        }
        record
    }

    /// The numbers of a record.
    #[must_use]
    pub fn from_bytes(record: [u8; Row::LENGTH]) -> Row {
        let parts = record.as_chunks().0;
        Row::from_numbers(std::array::from_fn(|at| u64::from_le_bytes(parts[at])))
    }
}
