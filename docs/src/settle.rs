//! Demand 3's words: no live node is listed; S; crashes that are spaced; the settled ring. And for crashes however close request 106's:
//! the tick from whose end on the survivors are joined; the joined ring, of whose lists nothing is said. And request 107's: the
//! tick from whose end on the survivors' lists are full. All of this is claimed of runs with W at least H + D, whose last line is E.

use super::node::{crashed, Node};
use super::plan::Plan;
use super::platform::Platform;
use super::ring::Ring;

/// K: "the base-two logarithm, rounded up, of how many survive (0 for none)".
fn rounded_up_logarithm(survivors: usize) -> u64 {
    u64::from(survivors.max(1).next_power_of_two().trailing_zeros())
}

/// S = W + (K + 2) × D, in ticks, after a crash that leaves this many survivors.
pub fn settling_time(timeout: u32, delay: u32, survivors: usize) -> u64 {
    u64::from(timeout) + (rounded_up_logarithm(survivors) + 2) * u64::from(delay)
}

/// S counted from the crash in this row of the plan.
fn settling_time_of(plan: &Plan, row: usize) -> u64 {
    settling_time(plan.timeout, plan.delay, usize::from(plan.nodes) - row - 1)
}

/// "no node's list holds a live node", crashed nodes' lists included.
pub fn no_live_node_listed(nodes: &[Node]) -> bool {
    let crashed = crashed(nodes);
    nodes.iter().all(|node| node.dead_list & !crashed == 0)
}

/// "Where each crash done came at least S ticks after the one before."
pub fn crashes_spaced(platform: &Platform) -> bool {
    let plan = platform.plan();
    let done = &plan.crashes[..platform.crashes_done()];
    done.windows(2)
        .enumerate()
        .all(|(row, pair)| u64::from(pair[1].tick) >= u64::from(pair[0].tick) + settling_time_of(plan, row))
}

/// "After a crash at tick c, S ticks have passed once no event due before c + S is left, those
/// beyond the end tick counted too." False where no crash is done.
pub fn settling_time_passed(platform: &mut Platform) -> bool {
    let Some(row) = platform.crashes_done().checked_sub(1) else { return false };
    let plan = platform.plan();
    let settled = u64::from(plan.crashes[row].tick) + settling_time_of(plan, row);
    platform.earliest_due().is_none_or(|due| u64::from(due) >= settled)
}

/// "every survivor's emitter and observer are the neighbouring survivors": it emits to the next survivor and observes the one
/// before; "a lone survivor is both to itself". Who these are goes by the ring's order.
pub fn joined(ring: &Ring, nodes: &[Node]) -> bool {
    let crashed = crashed(nodes);
    nodes.iter().filter(|node| node.alive).all(|node| {
        node.observer == ring.first_unlisted_ahead(crashed, node.number)
            && node.emitter == ring.first_unlisted_back(crashed, node.number).node
    })
}

/// "every survivor's list is exactly the crashed nodes".
pub fn lists_full(nodes: &[Node]) -> bool {
    let crashed = crashed(nodes);
    nodes.iter().all(|node| !node.alive || node.dead_list == crashed)
}

/// "every survivor lists exactly the crashed nodes, emits to the next survivor and observes the one
/// before".
pub fn settled(ring: &Ring, nodes: &[Node]) -> bool {
    lists_full(nodes) && joined(ring, nodes)
}

/// What demand 3 claims of the platform as it stands. It is "claimed for E runs only": where W is below H + D nothing is.
pub fn demand_3(platform: &mut Platform) -> bool {
    let owed = crashes_spaced(platform) && settling_time_passed(platform);
    let holds = no_live_node_listed(platform.nodes()) && (!owed || settled(platform.ring(), platform.nodes()));
    holds || platform.plan().short_timeout()
}

/// 2 × W × f + D, in ticks, after the last of f crashes.
pub fn joining_time(timeout: u32, delay: u32, crashes: usize) -> u64 {
    2 * u64::from(timeout) * crashes as u64 + u64::from(delay)
}

/// The tick of the last crash done; nothing where none is.
pub fn last_crash(platform: &Platform) -> Option<u32> {
    let row = platform.crashes_done().checked_sub(1)?;
    Some(platform.plan().crashes[row].tick)
}

/// c + 2 × W × f + D, c being the tick of the last crash done and f the number of crashes done; nothing where none is.
pub fn joining_tick(platform: &Platform) -> Option<u64> {
    let Plan { timeout, delay, .. } = platform.plan();
    Some(u64::from(last_crash(platform)?) + joining_time(*timeout, *delay, platform.crashes_done()))
}

/// Whether no event due by c + 2 × W × f + D is left. False where no crash is done.
pub fn joining_tick_passed(platform: &mut Platform) -> bool {
    Claim::Joined.owed(platform)
}

/// What request 106 claims of the platform as it stands.
pub fn request_106(platform: &mut Platform) -> bool {
    Claim::Joined.kept(platform)
}

/// (m − 1) × (H + D), in ticks, after the bound of request 106, with m survivors.
pub fn spreading_time(period: u32, delay: u32, survivors: usize) -> u64 {
    (survivors.max(1) as u64 - 1) * (u64::from(period) + u64::from(delay))
}

/// "the bound of #106 plus (m − 1) × (H + D)", "with m survivors, at least one"; nothing where there is none, or no crash is done.
pub fn listing_tick(platform: &Platform) -> Option<u64> {
    let Plan { period, delay, .. } = platform.plan();
    let joined = joining_tick(platform).filter(|_| platform.survivors() > 0)?;
    Some(joined + spreading_time(*period, *delay, platform.survivors()))
}

/// Whether no event due by that tick is left, counted as for request 106. False where there is no such tick.
pub fn listing_tick_passed(platform: &mut Platform) -> bool {
    Claim::Listed.owed(platform)
}

/// What request 107 claims of the platform as it stands.
pub fn request_107(platform: &mut Platform) -> bool {
    Claim::Listed.kept(platform)
}

/// What is claimed of crashes however close: something that holds from the end of a tick on until the next crash is done.
#[derive(Clone, Copy, PartialEq, Eq, Debug)]
pub enum Claim {
    /// Request 106: the survivors are joined.
    Joined,
    /// Request 107: the survivors' lists are full.
    Listed,
}

impl Claim {
    /// What is claimed.
    pub fn holds(self, ring: &Ring, nodes: &[Node]) -> bool {
        match self {
            Claim::Joined => joined(ring, nodes),
            Claim::Listed => lists_full(nodes),
        }
    }

    /// The tick from whose end on it is claimed; nothing where nothing is, as with W below H + D.
    pub fn tick(self, platform: &Platform) -> Option<u64> {
        match self {
            _ if platform.plan().short_timeout() => None,
            Claim::Joined => joining_tick(platform),
            Claim::Listed => listing_tick(platform),
        }
    }

    /// "no event due by" that tick "is left, those beyond the end tick counted. A refused event is one that is left", and so is a crash
    /// still planned. It goes by what is left alone, so that between two events nothing changes.
    pub fn owed(self, platform: &mut Platform) -> bool {
        let Some(tick) = self.tick(platform) else { return false };
        platform.earliest_due().is_none_or(|due| u64::from(due) > tick)
    }

    /// Whether it holds or is not owed.
    pub fn kept(self, platform: &mut Platform) -> bool {
        !self.owed(platform) || self.holds(platform.ring(), platform.nodes())
    }
}

#[cfg(test)]
mod tests {
    use super::super::plan;
    use super::*;

    /// The platform after so many events of the file, or after all that there are.
    fn after(events: u64, file: &str) -> Platform {
        let mut platform = Platform::open(plan::read(file.as_bytes()).expect("the file is accepted"));
        platform.run(events);
        platform
    }

    /// The platform after all events up to this end tick, two neighbours of five having crashed at tick 2: H 1, W 3, D 2, every delay 2.
    ///
    /// - Each node sends at tick 1, and these heartbeats arrive at tick 3: the watch of 3 is due at 6, on 2. It moves to 1, which is dead
    ///   too, and expires on it at 12. Its O comes to 0 at tick 14, and the survivors 0, 3 and 4 are joined.
    /// - The tick of request 106 is 2 + 2 × 3 × 2 + 2 = 16.
    fn up_to(end: u32) -> Platform {
        after(u64::MAX, &format!("P,5,1,3,2,{end}\nC,2,1\nC,2,2\n"))
    }

    /// Whether the claim is owed, whether the survivors are joined, and whether the claim holds.
    fn told(mut platform: Platform) -> (bool, bool, bool) {
        let joined = joined(platform.ring(), platform.nodes());
        (joining_tick_passed(&mut platform), joined, request_106(&mut platform))
    }

    /// The claim is owed or not, the survivors are joined or not, and the claim holds.
    fn holding((owed, joined): (bool, bool)) -> (bool, bool, bool) {
        (owed, joined, true)
    }

    /// Before the first crash, which is the sixth event, after it, and after the second.
    #[test]
    fn the_tick_goes_by_the_crashes_done() {
        let at = |events| joining_tick(&after(events, "P,5,1,3,2,16\nC,2,1\nC,2,2\n"));
        assert_eq!([5, 6, 7, 112].map(at), [None, Some(2 + 6 + 2), Some(2 + 12 + 2), Some(16)]);
        assert_eq!(joining_tick(&after(u64::MAX, "P,48,100,120,20,40\nC,7,3\nC,40,4\n")), Some(40 + 2 * 120 * 2 + 20));
        assert_eq!(joining_time(65_535, 255, 64), 8_388_735);
    }

    /// The ring opens joined, and nothing is claimed of it.
    #[test]
    fn no_claim_of_joining_before_a_crash() {
        assert_eq!(told(after(0, "P,3,3,4,1,8\nC,0,1\n")), (false, true, true));
        assert_eq!(told(after(u64::MAX, "P,1,3,4,1,8\n")), (false, true, true));
    }

    /// Each tick has events, so that the claim is owed once those of tick 16 are done, and not one tick before.
    #[test]
    fn survivors_are_joined_from_the_end_of_the_tick_on() {
        let told_at = |end| told(up_to(end));
        assert_eq!([2, 13, 14, 15, 16].map(told_at), [(false, false), (false, false), (false, true), (false, true), (true, true)].map(holding));
        let last = after(111, "P,5,1,3,2,16\nC,2,1\nC,2,2\n");
        assert_eq!((last.last_tick(), told(last)), (16, (false, true, true)));
    }

    /// One survivor that observes the dead node 2, or sends to it: the survivors are not joined, and the claim, which is owed, is false.
    #[test]
    fn one_wrong_neighbour_breaks_the_claim() {
        let stands = up_to(16);
        let neighbours = |node: &Node| (node.number, node.emitter, node.observer);
        let live: Vec<(u8, u8, u8)> = stands.nodes().iter().filter(|node| node.alive).map(neighbours).collect();
        assert_eq!(live, [(0, 4, 3), (3, 0, 4), (4, 3, 0)]);
        for (node, observes) in [(0, true), (0, false), (3, true), (3, false), (4, true), (4, false)] {
            let mut nodes = stands.nodes().to_vec();
            let changed = if observes { &mut nodes[node].emitter } else { &mut nodes[node].observer };
            *changed = 2;
            let wrong = Platform::resume(stands.plan().clone(), nodes, stands.messages(), stands.next_number(), 2, 16);
            assert_eq!(told(wrong), (true, false, false), "node {node}");
        }
    }

    /// H 5, W 6, D 1, and node 0 crashes at tick 1: the tick is 1 + 12 + 1 = 14. Node 1 expires on 0 at tick 6, and 2 gets its O at 7. So
    /// node 1 sends at 5, 10 and 15, node 2 at 7, 12 and 17. What arrives at 13 is still left where the end tick is 12; where it is 13
    /// nothing due by 14 is left.
    #[test]
    fn what_is_left_counts_beyond_the_end_tick() {
        let up_to = |end| told(after(u64::MAX, &format!("P,3,5,6,1,{end}\nC,1,0\n")));
        assert_eq!([6, 7, 12, 13, 14].map(up_to), [(false, false), (false, true), (false, true), (true, true), (true, true)].map(holding));
    }

    /// The worked log of 01: node 0 is alone from tick 6 on, its last event, and nothing is left. The tick is 3 + 6 + 1 = 10, so that a crash
    /// of node 0 planned for tick 10 is an event that is left, and one for tick 11 is not.
    #[test]
    fn a_lone_survivor_is_both_neighbours_to_itself() {
        assert_eq!(told(after(7, "P,2,2,3,1,6\nC,3,1\n")), (false, false, true));
        assert_eq!(told(after(8, "P,2,2,3,1,6\nC,3,1\n")), (true, true, true));
        assert_eq!(told(after(8, "P,2,2,3,1,20\nC,3,1\nC,10,0\n")), (false, true, true));
        assert_eq!(told(after(8, "P,2,2,3,1,20\nC,3,1\nC,11,0\n")), (true, true, true));
        assert_eq!(told(after(1, "P,1,2,3,1,6\nC,3,0\n")), (true, true, true));
    }

    /// All crash at tick 3, while the heartbeats of tick 2 are in flight; these are dropped at 3. The next crash ends what is owed.
    #[test]
    fn no_survivor_is_left_unjoined() {
        assert_eq!(told(after(5, "P,2,2,3,1,6\nC,3,0\nC,3,1\n")), (false, true, true));
        assert_eq!(told(after(6, "P,2,2,3,1,6\nC,3,0\nC,3,1\n")), (true, true, true));
        let file = "P,5,1,3,2,30\nC,2,1\nC,2,2\nC,20,3\n";
        let third = after(u64::MAX, "P,5,1,3,2,19\nC,2,1\nC,2,2\n").events_done() + 1;
        assert_eq!(told(after(third - 1, file)), (true, true, true));
        assert_eq!((told(after(third, file)), joining_tick(&after(third, file))), ((false, false, true), Some(20 + 18 + 2)));
    }

    /// The event that is refused is left, and so is everything after it: nothing is owed of a run that stops there.
    #[test]
    fn a_refused_event_is_left() {
        let mut platform = after(u64::MAX, "P,64,1,34,33,200\nC,0,5\n");
        let refused = platform.earliest_due().expect("it stopped before an event");
        assert!(platform.last_tick() <= refused && u64::from(refused) < joining_tick(&platform).expect("a crash is done"));
        assert_eq!(told(platform), (false, false, true));
    }

    /// Two nodes that live and list each other, and five of which two crash; H 1, W 2, D 2 there. W is below H + D: nothing is claimed of them,
    /// whatever they have come to. With W = H + D the same nodes would break each claim.
    #[test]
    fn nothing_is_claimed_with_a_short_timeout() {
        for file in ["P,2,2,2,1,6\n", "P,5,1,2,2,60\nC,2,1\nC,2,2\n"] {
            let mut platform = after(u64::MAX, file);
            assert!(!no_live_node_listed(platform.nodes()) && demand_3(&mut platform), "{file}");
            let claims = [Claim::Joined, Claim::Listed];
            assert!(claims.iter().all(|claim| claim.tick(&platform).is_none() && !claim.owed(&mut platform) && claim.kept(&mut platform)), "{file}");
        }
        let short = after(u64::MAX, "P,5,1,2,2,60\nC,2,1\nC,2,2\n");
        let plan = Plan { timeout: 3, ..short.plan().clone() };
        let mut enough = Platform::resume(plan, short.nodes().to_vec(), short.messages(), short.next_number(), 2, 60);
        assert!(!demand_3(&mut enough) && !request_106(&mut enough) && !request_107(&mut enough));
    }

    /// The platform with other lists of some nodes.
    fn relisted(platform: &Platform, lists: &[(usize, u64)]) -> Platform {
        let mut nodes = platform.nodes().to_vec();
        lists.iter().for_each(|(node, list)| nodes[*node].dead_list = *list);
        let (next, crashes, tick) = (platform.next_number(), platform.crashes_done(), platform.last_tick());
        Platform::resume(platform.plan().clone(), nodes, platform.messages(), next, crashes, tick)
    }

    /// A list that is short does not keep the survivors from being joined, but from being settled.
    #[test]
    fn joining_says_nothing_of_lists() {
        let platform = relisted(&up_to(16), &[(4, 0b00100)]);
        assert!(!settled(platform.ring(), platform.nodes()) && !lists_full(platform.nodes()));
        assert_eq!(told(platform), (true, true, true));
    }

    /// Whether request 107 is owed, whether the survivors' lists are full, and whether the claim holds.
    fn told_lists(mut platform: Platform) -> (bool, bool, bool) {
        let full = lists_full(platform.nodes());
        (listing_tick_passed(&mut platform), full, request_107(&mut platform))
    }

    /// Before the first crash; with four survivors, 10 + 3 × (1 + 2); with three, 16 + 2 × (1 + 2). With one it is the tick of request
    /// 106, with none there is none.
    #[test]
    fn the_tick_of_lists_goes_by_the_survivors() {
        let at = |events| listing_tick(&after(events, "P,5,1,3,2,16\nC,2,1\nC,2,2\n"));
        assert_eq!([5, 6, 7, 112].map(at), [None, Some(19), Some(22), Some(22)]);
        assert_eq!(listing_tick(&after(u64::MAX, "P,48,100,120,20,40\nC,7,3\nC,40,4\n")), Some(540 + 45 * 120));
        let lone = after(8, "P,2,2,3,1,6\nC,3,1\n");
        assert_eq!((listing_tick(&lone), joining_tick(&lone)), (Some(10), Some(10)));
        let none = after(6, "P,2,2,3,1,6\nC,3,0\nC,3,1\n");
        assert_eq!((listing_tick(&none), joining_tick(&none)), (None, Some(3 + 12 + 1)));
        assert_eq!([1, 0].map(|survivors| spreading_time(1_000, 255, survivors)), [0, 0]);
        assert_eq!(spreading_time(1_000, 255, 64), 63 * 1_255);
    }

    /// The survivors 0 and 4 hear of 2 at tick 8 and of 1 at 14. The claim is owed once the events of tick 22 are done, and not before.
    #[test]
    fn lists_are_full_from_the_end_of_the_tick_on() {
        let told_at = |end| told_lists(up_to(end));
        assert_eq!([2, 13, 14, 21, 22].map(told_at), [(false, false), (false, false), (false, true), (false, true), (true, true)].map(holding));
        assert_eq!(told_lists(after(0, "P,3,3,4,1,8\nC,0,1\n")), (false, true, true));
        assert_eq!(told_lists(after(u64::MAX, "P,1,3,4,1,8\n")), (false, true, true));
    }

    /// One survivor's list that lacks a crashed node, or holds a live one: the claim, which is owed, is false. Of a crashed node's list
    /// nothing is said, and of neighbours nothing either.
    #[test]
    fn one_wrong_list_breaks_the_claim() {
        let stands = up_to(22);
        assert_eq!([0, 3, 4].map(|node: usize| stands.nodes()[node].dead_list), [0b00110; 3]);
        for (node, list) in [(0, 0), (0, 0b00010), (3, 0b00100), (4, 0b00010), (4, 0b00111), (0, 0b01110)] {
            assert_eq!(told_lists(relisted(&stands, &[(node, list)])), (true, false, false), "node {node}: {list}");
        }
        for list in [0, 0b00100, 0b11001] {
            assert_eq!(told_lists(relisted(&stands, &[(1, list), (2, list)])), (true, true, true));
        }
        let mut nodes = stands.nodes().to_vec();
        nodes[4].observer = 3;
        let parted = Platform::resume(stands.plan().clone(), nodes, stands.messages(), stands.next_number(), 2, 22);
        assert_eq!((told(parted.clone()), told_lists(parted)), ((true, false, false), (true, true, true)));
    }

    /// H 5, W 6, D 1, and node 0 crashes at tick 1: the tick is 14 + 1 × (5 + 1) = 20. Node 1 sends at 15 and 20, node 2 at 17 and 22. What
    /// arrives at 18 is left where the end tick is 17, the heartbeat of tick 20 where it is 18. Where it is 20, the first thing left is due at 21.
    #[test]
    fn what_is_left_of_lists_counts_beyond_the_end_tick() {
        let up_to = |end| told_lists(after(u64::MAX, &format!("P,3,5,6,1,{end}\nC,1,0\n")));
        assert_eq!([6, 7, 17, 18, 20].map(up_to), [(false, false), (false, true), (false, true), (false, true), (true, true)].map(holding));
    }

    /// A lone survivor's list is full with its last event, the expired watch. A crash planned for the tick of the claim is left. Where none
    /// survives nothing is claimed.
    #[test]
    fn a_lone_survivor_lists_all() {
        assert_eq!(told_lists(after(7, "P,2,2,3,1,6\nC,3,1\n")), (false, false, true));
        assert_eq!(told_lists(after(8, "P,2,2,3,1,6\nC,3,1\n")), (true, true, true));
        assert_eq!(told_lists(after(8, "P,2,2,3,1,20\nC,3,1\nC,10,0\n")), (false, true, true));
        assert_eq!(told_lists(after(8, "P,2,2,3,1,20\nC,3,1\nC,11,0\n")), (true, true, true));
        assert_eq!(told_lists(after(6, "P,2,2,3,1,6\nC,3,0\nC,3,1\n")), (false, true, true));
    }

    /// The third crash, at tick 30, ends what is owed after the second.
    #[test]
    fn the_next_crash_ends_what_is_owed_of_lists() {
        let file = "P,5,1,3,2,60\nC,2,1\nC,2,2\nC,30,3\n";
        let third = up_to(29).events_done() + 1;
        assert_eq!(told_lists(after(third - 1, file)), (true, true, true));
        assert_eq!((told_lists(after(third, file)), listing_tick(&after(third, file))), ((false, false, true), Some(30 + 18 + 2 + 3)));
    }

    /// The neighbours are those in the ring's order: in number order those of the same nodes are others.
    #[test]
    fn neighbours_go_by_the_order_of_the_ring() {
        let platform = after(u64::MAX, "P,8,2,3,1,60\nQ,0,4,2,6,1,5,3,7\nC,5,1\nC,5,6\n");
        assert!(!joined(&Ring::of(8), platform.nodes()));
        assert_eq!(told(platform), (true, true, true));
    }
}
