//! Blood group codes of document 004's excerpt, and request W-201's groups B and AB behind them.
//!
//! Each row is a run of eight code numbers; only the default is out of line, the
//! fifth of the run though it heads the columns. So a row needs its lowest code alone.

const LOWEST: [u8; 8] = [91, 47, 2, 58, 13, 69, 24, 80];
const STEP: [u8; 8] = [4, 0, 1, 2, 3, 5, 6, 7];

/// The code in a row and column, both from 0.
pub fn code(row: usize, column: usize) -> Option<[u8; 2]> {
    let number = LOWEST.get(row)? + STEP.get(column)?;
    Some([b'0' + number / 10, b'0' + number % 10])
}

/// Row and column of a gg, or none if it is uninterpreted.
pub fn interpretation(gg: [u8; 2]) -> Option<(usize, usize)> {
    (0..LOWEST.len())
        .flat_map(|row| (0..8).map(move |column| (row, column)))
        .find(|&(r, c)| code(r, c) == Some(gg))
}

#[cfg(test)]
mod tests {
    use super::*;

    #[test]
    fn the_rows() {
        let rows = [
            "95 91 92 93 94 96 97 98",
            "51 47 48 49 50 52 53 54",
            "06 02 03 04 05 07 08 09",
            "62 58 59 60 61 63 64 65",
            "17 13 14 15 16 18 19 20",
            "73 69 70 71 72 74 75 76",
            "28 24 25 26 27 29 30 31",
            "84 80 81 82 83 85 86 87",
        ];
        for (row, codes) in rows.iter().enumerate() {
            for (column, gg) in codes.split(' ').enumerate() {
                let gg: [u8; 2] = gg.as_bytes().try_into().unwrap();
                assert_eq!(code(row, column), Some(gg));
                assert_eq!(interpretation(gg), Some((row, column)));
            }
        }
    }

    #[test]
    fn outside() {
        assert_eq!(code(8, 0), None);
        assert_eq!(code(0, 8), None);
        let known = (0..=65535u16).filter(|n| interpretation(n.to_be_bytes()).is_some());
        assert_eq!(known.count(), 64);
    }
}
