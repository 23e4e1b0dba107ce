//! Cuts a failing run down to inputs that all matter.

use second::replay::Input;

/// Leaves out inputs, in ever smaller pieces, as long as the rest still fails. `fails` gives the place
/// at which a run fails, and what comes after that place is dropped. The first input stays.
pub fn shrink(mut inputs: Vec<Input>, fails: impl Fn(&[Input]) -> Option<usize>) -> Vec<Input> {
    let Some(at) = fails(&inputs) else { return inputs };
    inputs.truncate(at + 1);
    let mut piece = inputs.len();
    loop {
        piece = (piece / 2).max(1);
        let before = inputs.len();
        inputs = without_pieces(inputs, piece, &fails);
        if piece == 1 && inputs.len() == before {
            return inputs;
        }
    }
}

/// Tries to do without each piece of this length, the last first.
fn without_pieces(
    mut inputs: Vec<Input>,
    piece: usize,
    fails: &impl Fn(&[Input]) -> Option<usize>,
) -> Vec<Input> {
    let mut end = inputs.len();
    while end > 1 {
        let start = end.saturating_sub(piece).max(1);
        let rest = [&inputs[..start], &inputs[end..]].concat();
        if let Some(at) = fails(&rest) {
            inputs = rest;
            inputs.truncate(at + 1);
        }
        end = start;
    }
    inputs
}

#[cfg(test)]
mod tests {
    use super::*;

    fn fails(inputs: &[Input]) -> Option<usize> {
        let mut ticks = 0;
        let mut seen = false;
        inputs.iter().position(|input| {
            ticks += usize::from(*input == Input::Tick && seen);
            seen |= *input == Input::Step(vec![7]);
            ticks == 3
        })
    }

    /// A run that fails at the third tick after one message comes down to five inputs.
    #[test]
    fn what_does_not_matter_goes() {
        let mut inputs = vec![Input::Fresh { n: 3, d: 1, own: 0 }];
        inputs.extend((0..200).map(|number| match number % 5 {
            0 => Input::Tick,
            1 => Input::Offer(vec![number]),
            _ => Input::Step(vec![number]),
        }));
        let shrunk = shrink(inputs.clone(), fails);
        let tick = Input::Tick;
        assert_eq!(
            shrunk,
            [&inputs[..1], &[Input::Step(vec![7])], &[tick.clone(), tick.clone(), tick]].concat()
        );
        assert_eq!(shrink(inputs[..5].to_vec(), fails), inputs[..5]);
    }
}
