//! How many ticks ago the last crash can be in each state of a search, and states that lead there.
//!
//! What a state goes on to does not depend on that, and what is owed some ticks after a crash is owed after more of them. So the most
//! ticks of each state are all that has to be known, and the search need not tell states apart by it.

/// The age of a state that is led to from a circle of states without a crash: the last crash can be any number of ticks ago.
pub const ENDLESS: u32 = u32::MAX;

/// States and what leads from one to another in a tick.
pub struct Graph<'search> {
    /// For each state the crashes done.
    crashes: Vec<u8>,
    /// For each state that was gone on from, the states one tick later, each with a number of ways.
    ways: &'search [Vec<(usize, u32)>],
}

impl<'search> Graph<'search> {
    pub fn new(crashes: Vec<u8>, ways: &'search [Vec<(usize, u32)>]) -> Graph<'search> {
        Graph { crashes, ways }
    }

    /// The states one tick later, where no node crashes in that tick: as many crashes are done in them.
    fn ahead(&self, id: usize) -> impl Iterator<Item = usize> + '_ {
        let leads = self.ways.get(id).into_iter().flatten();
        leads.map(|(to, _)| *to).filter(move |to| self.crashes[*to] == self.crashes[id])
    }

    /// The states after a crash.
    fn crashed(&self) -> impl Iterator<Item = usize> + '_ {
        (0..self.crashes.len()).filter(|id| self.crashes[*id] > 0)
    }

    /// For each state the most ticks from the last crash to its start, 1 where it crashed in the tick before; 0 where no crash is done.
    ///
    /// A state is taken once all those are that lead to it without a crash. A state that is never taken has a circle before it.
    pub fn ages(&self) -> Vec<u32> {
        let mut untaken = vec![0u32; self.crashes.len()];
        self.crashed().flat_map(|id| self.ahead(id)).for_each(|to| untaken[to] += 1);
        let mut ages: Vec<u32> = self.crashes.iter().map(|crashes| u32::from(*crashes > 0)).collect();
        let mut taken: Vec<usize> = self.crashed().filter(|id| untaken[*id] == 0).collect();
        while let Some(id) = taken.pop() {
            for to in self.ahead(id) {
                ages[to] = ages[to].max(ages[id] + 1);
                untaken[to] -= 1;
                if untaken[to] == 0 {
                    taken.push(to);
                }
            }
        }
        ages.iter().zip(untaken).map(|(age, untaken)| if untaken == 0 { *age } else { ENDLESS }).collect()
    }

    /// So many states, each of which leads to the next without a crash, and the last of which is this one. It is as old at least.
    pub fn path(&self, ages: &[u32], last: usize, length: u32) -> Vec<usize> {
        let mut path = vec![last];
        for _ in 1..length {
            let to = path[path.len() - 1];
            let before = self.crashed().filter(|id| self.ahead(*id).any(|ahead| ahead == to)).max_by_key(|id| ages[*id]);
            path.push(before.expect("a state older than one tick is led to without a crash"));
        }
        path.reverse();
        path
    }
}

#[cfg(test)]
mod tests {
    use super::*;

    /// State 0 is before any crash and may go on so. A crash leads to 1 or, with two crashes, to 6. The ways on from 1 are of two lengths,
    /// by 2 and 3 or at once to 4, where a circle with 5 begins. Crashes lead from 2 to 6 and from 5 to 7, and 6 leads to 7.
    const WAYS: [&[(usize, u32)]; 7] =
        [&[(0, 1), (1, 2), (6, 1)], &[(2, 1), (4, 3)], &[(3, 1), (6, 1)], &[(4, 1)], &[(5, 1)], &[(4, 1), (7, 1)], &[(7, 1)]];

    fn with_graph(check: impl Fn(&Graph)) {
        let ways = WAYS.map(<[(usize, u32)]>::to_vec);
        check(&Graph::new(vec![0, 1, 1, 1, 1, 1, 2, 2], &ways));
    }

    #[test]
    fn the_oldest_way_counts() {
        with_graph(|graph| assert_eq!(graph.ages(), [0, 1, 2, 3, ENDLESS, ENDLESS, 1, 2]));
    }

    #[test]
    fn paths_have_the_length_asked_for() {
        with_graph(|graph| {
            let ages = graph.ages();
            assert_eq!(graph.path(&ages, 3, 3), [1, 2, 3]);
            assert_eq!(graph.path(&ages, 3, 1), [3]);
            assert_eq!(graph.path(&ages, 7, 2), [6, 7]);
            assert_eq!(graph.path(&ages, 5, 6), [4, 5, 4, 5, 4, 5]);
        });
    }
}
