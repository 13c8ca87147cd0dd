//! A history, or anything else in a row, that goes wrong, cut to what is
//! needed.

/// The history without every call that it goes wrong without. `wrong` says at
/// which call a history goes wrong, if it does.
pub fn shorter<T: Clone>(history: &[T], mut wrong: impl FnMut(&[T]) -> Option<usize>) -> Vec<T> {
    let mut history = history.to_vec();
    let mut size = history.len();
    while size > 0 {
        let mut at = 0;
        while at < history.len() {
            let end = history.len().min(at + size);
            let without = [&history[..at], &history[end..]].concat();
            if let Some(last) = wrong(&without) {
                history = without[..=last].to_vec();
            } else {
                at = end;
            }
        }
        size /= 2;
    }
    history
}

/// What is made with as few of these as it goes wrong with.
pub fn fewest<T: Clone, C>(
    all: &[T],
    with: impl Fn(&[T]) -> C,
    mut wrong: impl FnMut(&C) -> bool,
) -> C {
    let none = with(&[]);
    if wrong(&none) {
        return none;
    }
    // `shorter` asks at which place a row goes wrong: here at its last
    with(&shorter(all, |some| {
        let last = some.len().checked_sub(1)?;
        wrong(&with(some)).then_some(last)
    }))
}

#[cfg(test)]
mod tests {
    use super::{fewest, shorter};

    #[test]
    fn only_what_is_needed() {
        // wrong at a 9 after a 3 after a 5
        let wrong = |history: &[u32]| {
            let five = history.iter().position(|&call| call == 5)?;
            let three = five + history[five..].iter().position(|&call| call == 3)?;
            let nine = history[three..].iter().position(|&call| call == 9)?;
            Some(three + nine)
        };
        let history: Vec<u32> = (0..400).map(|call| call * 7 % 11).collect();
        assert_eq!(shorter(&history, wrong), [5, 3, 9]);
        assert_eq!(shorter(&[5, 3, 9], wrong), [5, 3, 9]);
        assert_eq!(shorter(&[5, 5, 3, 1, 9, 2], wrong), [5, 3, 9]);
    }

    #[test]
    fn none_may_be_enough() {
        let sum = |some: &[u32]| some.iter().sum::<u32>();
        assert_eq!(fewest(&[1, 2, 4, 8], sum, |&sum| sum >= 8), 8);
        assert_eq!(fewest(&[1, 2, 4, 8], sum, |_| true), 0);
    }

    #[test]
    fn wrong_from_the_start() {
        assert_eq!(
            shorter(&[1, 2, 3], |history| history.len().checked_sub(1)),
            [3]
        );
    }
}
