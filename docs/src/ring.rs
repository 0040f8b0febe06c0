//! The ring and the dead list, "a 64-bit number whose bit i stands for node i".
//! Neighbours are found by walking the ring node by node, in its order.

use super::limits::*;

/// Whether bit `node` of the list is set.
pub fn listed(list: u64, node: u8) -> bool {
    list >> node & 1 == 1
}

/// The list with `node` added.
pub fn with(list: u64, node: u8) -> u64 {
    list | 1 << node
}

/// The list with `node` taken out.
pub fn without(list: u64, node: u8) -> u64 {
    list & !(1 << node)
}

/// Whether the list has no bit from N on.
pub fn below(list: u64, nodes: u64) -> bool {
    nodes >= MAX_NODES || list >> nodes == 0
}

/// Up to six forward targets, in the order of sending.
#[derive(Clone, Copy, PartialEq, Eq, Debug)]
pub struct Targets {
    row: [u8; MAX_TARGETS],
    count: usize,
}

impl Targets {
    fn add(&mut self, target: u8) {
        self.row[self.count] = target;
        self.count += 1;
    }

    pub fn as_slice(&self) -> &[u8] {
        &self.row[..self.count]
    }

    /// The row of the forwarding table: the targets, then 255 where there is none.
    pub fn row(&self) -> [u8; MAX_TARGETS] {
        self.row
    }
}

/// What the search for the node before answers.
#[derive(Clone, Copy, PartialEq, Eq, Debug)]
pub struct Back {
    /// The first unlisted node.
    pub node: u8,
    /// "how many listed nodes it passed, the one just left included".
    pub passed: u8,
}

/// Nodes in a ring, in any order. All that goes by the ring's order is asked of it.
#[derive(Clone, Copy, PartialEq, Eq, Debug)]
pub struct Ring {
    nodes: u8,
    /// The nodes one after another.
    order: [u8; MAX_NODES as usize],
    /// For each node its place among them.
    places: [u8; MAX_NODES as usize],
}

impl Ring {
    /// This many nodes in the order of their numbers.
    pub const fn of(nodes: u8) -> Ring {
        let mut order = [0; MAX_NODES as usize];
        let mut node = 0;
        while node < nodes {
            order[node as usize] = node;
            node += 1;
        }
        Ring { nodes, order, places: order }
    }

    /// The nodes in this order, which has each of them once.
    pub fn in_order(numbers: &[u8]) -> Ring {
        let mut ring = Ring::of(numbers.len() as u8);
        for (place, node) in numbers.iter().enumerate() {
            ring.order[place] = *node;
            ring.places[usize::from(*node)] = place as u8;
        }
        ring
    }

    /// N.
    pub fn nodes(&self) -> u8 {
        self.nodes
    }

    /// The nodes that stand before `node` in the order, and those after it.
    fn parts(&self, node: u8) -> (&[u8], &[u8]) {
        let place = usize::from(self.places[usize::from(node)]);
        (&self.order[..place], &self.order[place + 1..usize::from(self.nodes)])
    }

    /// The other nodes, going ahead from `node`.
    fn ahead(&self, node: u8) -> impl Iterator<Item = u8> + '_ {
        let (until, from) = self.parts(node);
        from.iter().chain(until).copied()
    }

    /// The other nodes, going back from `node`.
    fn back(&self, node: u8) -> impl Iterator<Item = u8> + '_ {
        let (until, from) = self.parts(node);
        until.iter().rev().chain(from.iter().rev()).copied()
    }

    /// The node after `node`.
    pub fn after(&self, node: u8) -> u8 {
        self.first_unlisted_ahead(0, node)
    }

    /// The node before `node`.
    pub fn before(&self, node: u8) -> u8 {
        self.first_unlisted_back(0, node).node
    }

    /// "the first unlisted node going back from it", and the listed nodes passed: `from`, where it is listed, and those after it on
    /// the way back. The walk ends at `from` itself where every node is listed, which no live node's list leads to.
    pub fn first_unlisted_back(&self, list: u64, from: u8) -> Back {
        let mut passed = u8::from(listed(list, from));
        for node in self.back(from) {
            if !listed(list, node) {
                return Back { node, passed };
            }
            passed += 1;
        }
        Back { node: from, passed }
    }

    /// "the first one ahead in the ring" that the list does not hold, `from` itself where it holds all others.
    pub fn first_unlisted_ahead(&self, list: u64, from: u8) -> u8 {
        self.ahead(from).find(|node| !listed(list, *node)).unwrap_or(from)
    }

    /// "For each power of two below m, smallest first, the target is that many unlisted nodes ahead."
    /// m counts the unlisted nodes, the node itself included.
    pub fn forward_targets(&self, list: u64, node: u8) -> Targets {
        let mut targets = Targets { row: [NO_TARGET; MAX_TARGETS], count: 0 };
        let mut passed = 0u32;
        self.ahead(node).filter(|ahead| !listed(list, *ahead)).for_each(|ahead| {
            passed += 1;
            if passed.is_power_of_two() {
                targets.add(ahead);
            }
        });
        targets
    }
}

/// The forwarding table: 64 rows of six targets.
pub type Table = [[u8; MAX_TARGETS]; MAX_NODES as usize];

/// The table of a refused call.
pub const EMPTY_TABLE: Table = [[NO_TARGET; MAX_TARGETS]; MAX_NODES as usize];

/// In number order: "the rows of listed nodes and of numbers from N on are all 255. N outside 1 to 64, or a list
/// with a bit from N on, is refused by 3."
pub fn forwarding_table(nodes: u64, list: u64) -> Result<Table, u8> {
    if !(1..=MAX_NODES).contains(&nodes) || !below(list, nodes) {
        return Err(REFUSED_RANGE);
    }
    let ring = Ring::of(nodes as u8);
    let mut table = EMPTY_TABLE;
    for node in (0..ring.nodes).filter(|node| !listed(list, *node)) {
        table[usize::from(node)] = ring.forward_targets(list, node).row();
    }
    Ok(table)
}

#[cfg(test)]
mod tests {
    use super::super::random::Random;
    use super::*;

    /// The forward targets once more, by the paper's words over the nodes ahead in a row.
    fn targets_in_words(order: &[u8], list: u64, node: u8) -> Vec<u8> {
        let place = order.iter().position(|other| *other == node).unwrap();
        let unlisted: Vec<u8> = (0..order.len())
            .map(|step| order[(place + step) % order.len()])
            .filter(|other| !listed(list, *other))
            .collect();
        (0..)
            .map(|power| 1 << power)
            .take_while(|jump| *jump < unlisted.len())
            .map(|jump: usize| unlisted[jump])
            .collect()
    }

    /// N, an order of the nodes and a list below N, of which `node` is no member, for each of some thousand rounds.
    fn for_some_rings(mut check: impl FnMut(&[u8], u64, u8)) {
        let mut random = Random::seeded(101);
        for round in 0..2_000u64 {
            let nodes = (round % 64 + 1) as u8;
            let mut order: Vec<u8> = (0..nodes).collect();
            if round % 3 > 0 {
                random.shuffle(&mut order);
            }
            let list = random.draw() & random.draw() & (u64::MAX >> (64 - nodes));
            let node = random.below(u64::from(nodes)) as u8;
            check(&order, list & !(1 << node), node);
        }
    }

    #[test]
    fn jumps_go_over_unlisted_nodes() {
        let list = 1 << 2 | 1 << 3;
        assert_eq!(Ring::of(8).forward_targets(list, 1).as_slice(), [4, 5, 7]);
        assert_eq!(Ring::of(8).forward_targets(list, 7).as_slice(), [0, 1, 5]);
    }

    #[test]
    fn powers_of_two_below_the_count() {
        assert_eq!(Ring::of(1).forward_targets(0, 0).as_slice(), [0u8; 0]);
        assert_eq!(Ring::of(2).forward_targets(0, 0).as_slice(), [1]);
        assert_eq!(Ring::of(4).forward_targets(0, 0).as_slice(), [1, 2]);
        assert_eq!(Ring::of(5).forward_targets(0, 0).as_slice(), [1, 2, 4]);
        assert_eq!(Ring::of(64).forward_targets(0, 0).as_slice(), [1, 2, 4, 8, 16, 32]);
        assert_eq!(Ring::of(33).forward_targets(0, 32).as_slice(), [0, 1, 3, 7, 15, 31]);
        assert_eq!(Ring::of(64).forward_targets(!(1 << 9), 9).as_slice(), [0u8; 0]);
    }

    #[test]
    fn going_back_passes_listed_nodes() {
        let back = |nodes, list, from| Ring::of(nodes).first_unlisted_back(list, from);
        assert_eq!(back(5, 1 << 3 | 1 << 4, 4), Back { node: 2, passed: 2 });
        assert_eq!(back(5, 0b11110, 4), Back { node: 0, passed: 4 });
        assert_eq!(back(5, 0b11110, 1), Back { node: 0, passed: 1 });
        assert_eq!(back(64, 1 | 1 << 63, 0), Back { node: 62, passed: 2 });
        assert_eq!(back(64, !1, 63), Back { node: 0, passed: 63 });
        assert_eq!(back(64, 0, 0), Back { node: 63, passed: 0 });
        assert_eq!(Ring::of(64).first_unlisted_ahead(1 | 1 << 63, 63), 1);
    }

    #[test]
    fn targets_agree_with_the_words() {
        for_some_rings(|order, list, node| {
            let targets = Ring::in_order(order).forward_targets(list, node);
            assert_eq!(targets.as_slice(), targets_in_words(order, list, node), "{order:?} {list:x} {node}");
        });
    }

    /// 2 → 0 → 3 → 1 → 2. After 3 come 1 and 2; with 1 listed, 2 and 0; with 1 and 2 listed, 0.
    #[test]
    fn neighbours_follow_the_order() {
        let ring = Ring::in_order(&[2, 0, 3, 1]);
        assert_eq!([0, 1, 2, 3].map(|node| ring.after(node)), [3, 2, 0, 1]);
        assert_eq!([0, 1, 2, 3].map(|node| ring.before(node)), [2, 3, 1, 0]);
        assert_eq!(ring.forward_targets(0, 3).as_slice(), [1, 2]);
        assert_eq!(ring.forward_targets(0b0010, 3).as_slice(), [2, 0]);
        assert_eq!(ring.forward_targets(0b0110, 3).as_slice(), [0]);
        assert_eq!(ring.first_unlisted_back(0b0001, 0), Back { node: 2, passed: 1 });
        assert_eq!(ring.first_unlisted_back(0b0101, 0), Back { node: 1, passed: 2 });
        assert_eq!(ring.first_unlisted_back(0b0111, 0), Back { node: 3, passed: 3 });
        assert_eq!(ring.first_unlisted_ahead(0b0110, 3), 0);
        assert_eq!(ring.first_unlisted_ahead(0b0111, 3), 3);
        let alone = Ring::in_order(&[0]);
        assert_eq!((alone.after(0), alone.before(0), alone.first_unlisted_back(0, 0)), (0, 0, Back { node: 0, passed: 0 }));
    }

    #[test]
    fn number_order_is_an_order_too() {
        for nodes in 1..=64u8 {
            let order: Vec<u8> = (0..nodes).collect();
            assert_eq!(Ring::in_order(&order), Ring::of(nodes));
            for node in 0..nodes {
                assert_eq!(Ring::of(nodes).after(node), (node + 1) % nodes);
                assert_eq!(Ring::of(nodes).before(node), (node + nodes - 1) % nodes);
            }
        }
    }

    /// A ring in any order is the ring in number order of its places: node `order[i]` in it is as node `i` there.
    #[test]
    fn an_order_renames_the_nodes() {
        for_some_rings(|order, list, node| {
            let (ring, plain) = (Ring::in_order(order), Ring::of(order.len() as u8));
            let place = |node| order.iter().position(|other| *other == node).unwrap() as u8;
            let places = order.iter().filter(|node| listed(list, **node)).fold(0, |places, node| with(places, place(*node)));
            let named = |place: u8| order[usize::from(place)];
            let targets: Vec<u8> =
                plain.forward_targets(places, place(node)).as_slice().iter().map(|place| named(*place)).collect();
            assert_eq!(ring.forward_targets(list, node).as_slice(), targets);
            for from in 0..order.len() as u8 {
                let (back, ahead) = (plain.first_unlisted_back(places, from), plain.first_unlisted_ahead(places, from));
                assert_eq!(ring.first_unlisted_back(list, named(from)), Back { node: named(back.node), ..back });
                assert_eq!(ring.first_unlisted_ahead(list, named(from)), named(ahead));
            }
        });
    }

    /// The search for the node before once more, in words: of the nodes in a row, going back from `from`, the first that is unlisted; and
    /// the listed ones that stand before it in the row, which begins with `from` itself.
    #[test]
    fn going_back_agrees_with_the_words() {
        let mut most = 0;
        for_some_rings(|order, list, _| {
            let ring = Ring::in_order(order);
            for from in 0..order.len() {
                let row: Vec<u8> = (0..order.len()).map(|step| order[(from + order.len() - step) % order.len()]).collect();
                let found = (1..row.len()).find(|step| !listed(list, row[*step])).unwrap_or(0);
                let until = if found == 0 { row.len() } else { found };
                let passed = row[..until].iter().filter(|other| listed(list, **other)).count() as u8;
                let back = ring.first_unlisted_back(list, order[from]);
                assert_eq!(back, Back { node: row[found], passed }, "{order:?} {list:x} {from}");
                most = most.max(passed);
            }
        });
        assert!(most > 4, "at most {most} nodes are passed");
    }

    /// Rotated, an order is the same ring; reversed, ahead and back change places.
    #[test]
    fn rotated_and_reversed_orders() {
        for_some_rings(|order, list, node| {
            let mut rotated = order.to_vec();
            rotated.rotate_left(usize::from(node));
            let reversed: Vec<u8> = order.iter().rev().copied().collect();
            let [ring, rotated, reversed] = [order, &rotated, &reversed].map(Ring::in_order);
            assert_eq!(rotated.forward_targets(list, node), ring.forward_targets(list, node));
            assert_eq!(rotated.first_unlisted_back(list, node), ring.first_unlisted_back(list, node));
            assert_eq!(reversed.first_unlisted_ahead(list, node), ring.first_unlisted_back(list, node).node);
            assert_eq!(reversed.before(node), ring.after(node));
        });
    }

    #[test]
    fn table_rows() {
        let table = forwarding_table(8, 1 << 2 | 1 << 3).unwrap();
        assert_eq!(table[1], [4, 5, 7, 255, 255, 255]);
        assert_eq!(table[7], [0, 1, 5, 255, 255, 255]);
        for row in [2, 3, 8, 63] {
            assert_eq!(table[row], [255; 6]);
        }
        assert_eq!(forwarding_table(64, 0).unwrap()[63], [0, 1, 3, 7, 15, 31]);
        assert_eq!(forwarding_table(1, 0), Ok(EMPTY_TABLE));
        assert_eq!(forwarding_table(64, u64::MAX), Ok(EMPTY_TABLE));
    }

    #[test]
    fn table_refusals() {
        for (nodes, list) in
            [(0, 0), (65, 0), (u64::MAX, 0), (1, 2), (8, 1 << 8), (63, 1 << 63), (0, u64::MAX)]
        {
            assert_eq!(forwarding_table(nodes, list), Err(3), "{nodes} {list:x}");
        }
        assert!(forwarding_table(63, 1 << 62).is_ok());
    }
}
