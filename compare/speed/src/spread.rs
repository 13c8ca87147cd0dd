//! Median and quartiles.

#[derive(Debug, Clone, Copy, PartialEq)]
pub struct Spread {
    pub low: f64,
    pub middle: f64,
    pub high: f64,
}

impl Spread {
    /// Of at least one number. Between two of them it is as far as the share
    /// says.
    pub fn of(numbers: &[f64]) -> Self {
        let mut sorted = numbers.to_vec();
        sorted.sort_by(f64::total_cmp);
        let at = |share: f64| {
            let place = share * (sorted.len() - 1) as f64;
            let (below, above) = (place.floor(), place.ceil());
            let (low, high) = (sorted[below as usize], sorted[above as usize]);
            low + (high - low) * (place - below)
        };
        Self {
            low: at(0.25),
            middle: at(0.5),
            high: at(0.75),
        }
    }
}

#[cfg(test)]
mod tests {
    use super::*;

    fn spread(numbers: &[f64]) -> [f64; 3] {
        let Spread { low, middle, high } = Spread::of(numbers);
        [low, middle, high]
    }

    #[test]
    fn of_some_numbers() {
        assert_eq!(spread(&[7.0]), [7.0, 7.0, 7.0]);
        assert_eq!(spread(&[3.0, 1.0]), [1.5, 2.0, 2.5]);
        assert_eq!(spread(&[5.0, 1.0, 4.0, 2.0, 3.0]), [2.0, 3.0, 4.0]);
    }

    #[test]
    fn one_that_is_far_off_moves_nothing() {
        assert_eq!(spread(&[1.0, 2.0, 3.0, 4.0, 900.0]), [2.0, 3.0, 4.0]);
    }
}
