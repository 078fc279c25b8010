//! Stand-in for itertools: `tuple_combinations` for pairs, in the order of positions.

pub struct PairCombinations<I: Iterator> {
    first: Option<I::Item>,
    behind_first: I,
    second: I,
}

impl<I> Iterator for PairCombinations<I>
where
    I: Iterator + Clone,
    I::Item: Clone,
{
    type Item = (I::Item, I::Item);

    fn next(&mut self) -> Option<Self::Item> {
        loop {
            let a = self.first.clone()?;
            if let Some(b) = self.second.next() {
                return Some((a, b));
            }
            self.first = self.behind_first.next();
            self.second = self.behind_first.clone();
        }
    }
}

pub trait Itertools: Iterator {
    fn tuple_combinations(mut self) -> PairCombinations<Self>
    where
        Self: Sized + Clone,
        Self::Item: Clone,
    {
        let first = self.next();
        let second = self.clone();
        PairCombinations {
            first,
            behind_first: self,
            second,
        }
    }
}

impl<I: Iterator> Itertools for I {}
