//! Requests 106 and 107 over whole runs: how often each is owed, and how late survivors are not joined yet, or their lists not full. With W
//! below H + D neither claims anything, and such a run counts for nothing.

use super::platform::{Platform, Step};
use super::settle::{self, Claim};

/// Ticks after the last crash done, beside the bound of what is claimed.
#[derive(Clone, Copy, PartialEq, Eq, Debug)]
pub struct Late {
    pub ticks: u64,
    pub bound: u64,
}

impl Late {
    /// Whether it comes nearer to its bound than the other does to its own, in proportion.
    fn nearer(&self, other: &Late) -> bool {
        self.ticks * other.bound > other.ticks * self.bound
    }
}

/// What one run or several come to, of one of the two claims.
#[derive(Clone, Copy, PartialEq, Eq, Debug)]
pub struct Joining {
    /// Runs in which a node crashes, W being at least H + D.
    pub crashed: u64,
    /// Events after which the claim is owed.
    pub owed: u64,
    /// The tick at whose end what is claimed does not hold that comes nearest to its bound; nothing where it holds at the end of every tick.
    pub nearest: Option<Late>,
}

impl Joining {
    pub const NONE: Joining = Joining { crashed: 0, owed: 0, nearest: None };

    pub fn add(&mut self, other: &Joining) {
        self.crashed += other.crashed;
        self.owed += other.owed;
        if let Some(late) = other.nearest {
            self.keep_nearer(late);
        }
    }

    fn keep_nearer(&mut self, late: Late) {
        if self.nearest.is_none_or(|nearest| late.nearer(&nearest)) {
            self.nearest = Some(late);
        }
    }
}

/// Takes the platform to its last event and asks the claim after each, which is at the end of each tick too. An error says where it is false.
pub fn of_run(platform: &mut Platform, claim: Claim) -> Result<Joining, String> {
    let mut joining = Joining::NONE;
    while let Step::Event(_) = platform.step() {
        if !claim.kept(platform) {
            let (tick, events) = (platform.last_tick(), platform.events_done());
            let what = match claim {
                Claim::Joined => "the survivors are not joined",
                Claim::Listed => "a survivor's list is not full",
            };
            return Err(format!("{what} at tick {tick}, after {events} events"));
        }
        joining.owed += u64::from(claim.owed(platform));
        if let Some(late) = late(platform, claim) {
            joining.keep_nearer(late);
        }
    }
    joining.crashed = u64::from(platform.crashes_done() > 0 && !platform.plan().short_timeout());
    Ok(joining)
}

/// The last tick at whose end the platform stands as it does, where a crash is done and what is claimed does not hold: the one before the
/// next event's, or the end tick. There is none where the next event is due at this tick.
fn late(platform: &mut Platform, claim: Claim) -> Option<Late> {
    let crash = settle::last_crash(platform)?;
    let beyond = platform.plan().end + 1;
    let next = platform.earliest_due().map_or(beyond, |due| beyond.min(due));
    if next <= platform.last_tick() || claim.holds(platform.ring(), platform.nodes()) {
        return None;
    }
    Some(Late { ticks: u64::from(next - 1 - crash), bound: claim.tick(platform)? - u64::from(crash) })
}

#[cfg(test)]
mod tests {
    use super::super::plan;
    use super::*;

    fn open(file: &str) -> Platform {
        Platform::open(plan::read(file.as_bytes()).expect("the file is accepted"))
    }

    fn joined(platform: &mut Platform) -> Result<Joining, String> {
        of_run(platform, Claim::Joined)
    }

    fn told(crashed: u64, owed: u64, ticks: u64, bound: u64) -> Result<Joining, String> {
        Ok(Joining { crashed, owed, nearest: Some(Late { ticks, bound }) })
    }

    /// Two neighbours of five crash at tick 2, and an O joins the survivors at tick 14: at the end of tick 13 they were not, 11 ticks after
    /// the crash, and the bound is 14 ticks. Owed it is after the last event of tick 16, and after the three deliveries and three
    /// heartbeats of each tick from 17 on.
    #[test]
    fn survivors_of_two_neighbours() {
        let crashes = "C,2,1\nC,2,2\n";
        for (end, owed, ticks) in [(9, 0, 7), (13, 0, 11), (14, 0, 11), (15, 0, 11), (16, 1, 11), (17, 7, 11), (20, 25, 11)] {
            assert_eq!(joined(&mut open(&format!("P,5,1,3,2,{end}\n{crashes}"))), told(1, owed, ticks, 14), "end tick {end}");
        }
    }

    /// The worked log of 01: node 0 is alone from tick 6 on, and was not at the end of tick 5. That event is the only one at which the claim
    /// is owed. Where no node crashes nothing is, and where all do nobody is late.
    #[test]
    fn a_lone_survivor_and_none() {
        assert_eq!(joined(&mut open("P,2,2,3,1,6\nC,3,1\n")), told(1, 1, 2, 7));
        assert_eq!(joined(&mut open("P,2,2,3,1,6\n")), Ok(Joining::NONE));
        assert_eq!(joined(&mut open("P,1,2,3,1,6\nC,3,0\n")), Ok(Joining { crashed: 1, owed: 1, nearest: None }));
    }

    /// The survivors of the first crash are not joined up to the tick before the second, from which on ticks are counted anew. Between two
    /// crashes of one tick no tick ends.
    #[test]
    fn each_crash_begins_anew() {
        let nearest = |file| joined(&mut open(file));
        assert_eq!(nearest("P,3,3,5,2,3\nC,0,0\n"), told(1, 0, 3, 12));
        assert_eq!(nearest("P,3,3,5,2,9\nC,0,0\nC,4,1\n"), told(1, 0, 3, 12));
        assert_eq!(nearest("P,3,3,5,2,12\nC,0,0\nC,4,1\n"), told(1, 0, 8, 22));
        assert_eq!(nearest("P,3,3,5,2,0\nC,0,0\nC,0,1\n"), told(1, 0, 0, 22));
    }

    /// A lent platform with one wrong neighbour, long after the crash: the first event shows it.
    #[test]
    fn a_broken_claim_is_told() {
        let mut stands = open("P,5,1,3,2,30\nC,2,1\nC,2,2\n");
        stands.run(150);
        let mut nodes = stands.nodes().to_vec();
        nodes[4].observer = 3;
        let (tick, next) = (stands.last_tick(), stands.next_number());
        let mut wrong = Platform::resume(stands.plan().clone(), nodes, stands.messages(), next, 2, tick);
        assert_eq!(joined(&mut wrong), Err(format!("the survivors are not joined at tick {}, after 1 events", wrong.last_tick())));
        assert_eq!(wrong.events_done(), 1);
        assert!(joined(&mut stands).is_ok());
    }

    fn listed(platform: &mut Platform) -> Result<Joining, String> {
        of_run(platform, Claim::Listed)
    }

    /// The survivors of the two neighbours above hear of the second one when the O arrives, at tick 14. The bound is 14 + 2 × (1 + 2) ticks,
    /// so that it is owed after the last event of tick 22, and after the six of each later tick.
    #[test]
    fn lists_of_two_neighbours() {
        let crashes = "C,2,1\nC,2,2\n";
        for (end, owed, ticks) in [(9, 0, 7), (13, 0, 11), (14, 0, 11), (21, 0, 11), (22, 1, 11), (23, 7, 11), (24, 13, 11)] {
            assert_eq!(listed(&mut open(&format!("P,5,1,3,2,{end}\n{crashes}"))), told(1, owed, ticks, 20), "end tick {end}");
        }
        assert_eq!(listed(&mut open("P,2,2,3,1,6\nC,3,1\n")), told(1, 1, 2, 7));
        assert_eq!(listed(&mut open("P,2,2,3,1,6\n")), Ok(Joining::NONE));
        assert_eq!(listed(&mut open("P,1,2,3,1,6\nC,3,0\n")), Ok(Joining { crashed: 1, owed: 0, nearest: None }));
    }

    /// A lent platform with one short list, long after the crash.
    #[test]
    fn a_short_list_is_told() {
        let mut stands = open("P,5,1,3,2,30\nC,2,1\nC,2,2\n");
        stands.run(170);
        let mut nodes = stands.nodes().to_vec();
        nodes[4].dead_list = 0b00100;
        let (tick, next) = (stands.last_tick(), stands.next_number());
        let mut wrong = Platform::resume(stands.plan().clone(), nodes, stands.messages(), next, 2, tick);
        assert_eq!(listed(&mut wrong), Err(format!("a survivor's list is not full at tick {}, after 1 events", wrong.last_tick())));
        assert!(joined(&mut stands.clone()).is_ok() && listed(&mut stands).is_ok());
    }

    /// With W below H + D neither claim is asked: nothing is owed, nobody is late, and no crash is counted.
    #[test]
    fn a_short_timeout_counts_for_nothing() {
        let mut platform = open("P,5,1,2,2,60\nC,2,1\nC,2,2\n");
        assert_eq!((joined(&mut platform.clone()), listed(&mut platform)), (Ok(Joining::NONE), Ok(Joining::NONE)));
        assert_eq!(platform.crashes_done(), 2);
    }

    /// Half of a bound is nearer than a third of another, however many ticks these are.
    #[test]
    fn the_nearest_goes_by_proportion() {
        let late = |ticks, bound| Joining { crashed: 1, owed: 2, nearest: Some(Late { ticks, bound }) };
        let mut all = Joining::NONE;
        for one in [late(10, 30), late(5, 10), Joining { nearest: None, ..late(1, 1) }, late(20, 41)] {
            all.add(&one);
        }
        assert_eq!(all, Joining { crashed: 4, owed: 8, nearest: Some(Late { ticks: 5, bound: 10 }) });
    }
}
