//! Stores: those that a run file leads to; and some that none leads to, all of them in range: a plan with any fields of nodes and any
//! messages that the ranges allow, W at least H + D or less. Rules can be told apart on these that no run with W at least H + D tells apart, as
//! a watch renewed by a heartbeat from anyone, or a heartbeat that names its sender or its receiver.
#![allow(dead_code)]

use simulator::layout;
use simulator::limits::*;
use simulator::node::{Content, Node};
use simulator::plan::{self, Plan};
use simulator::platform::Platform;
use simulator::queue::Message;
use simulator::random::Random;
use simulator::store;

/// The simulator's platform, opened from a file that is accepted.
pub fn platform_of(file: &[u8]) -> Platform {
    Platform::open(plan::read(file).expect("the file is accepted"))
}

/// The store of a plan after some of its events.
pub fn reached(file: &[u8], events: u64) -> Vec<u8> {
    let mut platform = platform_of(file);
    platform.run(events);
    store::encode(&platform)
}

/// A store of the plan at a tick of its run, with everything else at random.
pub fn any(plan: &Plan, random: &mut Random) -> Vec<u8> {
    let last = random.range(0, u64::from(plan.end)) as u32;
    let past = plan.crashes.iter().filter(|row| row.tick < last).count() as u64;
    let crashes_done = random.range(past, plan.crashes.len() as u64) as usize;
    let is_crashed = |number| plan.crashes[..crashes_done].iter().any(|row| row.node == number);
    let density = random.range(0, 4);
    let nodes: Vec<Node> = (0..plan.nodes).map(|number| node(plan, last, number, !is_crashed(number), density, random)).collect();
    let messages = messages(plan, last, &nodes, random);
    let next_number = messages.last().map_or(0, |(_, message)| message.number + 1);
    let next_number = random.pick(&[next_number, next_number + 1, MAX_NEXT_NUMBER]);
    let mut bytes = store::encode(&Platform::resume(plan.clone(), nodes, messages.clone(), next_number, crashes_done, last));
    for (place, (_, message)) in messages.iter().enumerate() {
        if !matches!(message.content, Content::Report { .. }) {
            layout::put(&mut bytes, layout::MESSAGE_SUBJECT, place, random.range(0, u64::from(plan.nodes) - 1));
        }
    }
    bytes
}

fn some_node(plan: &Plan, random: &mut Random) -> u8 {
    random.range(0, u64::from(plan.nodes) - 1) as u8
}

/// A node other than `number`, of a ring that has one.
fn other_node(plan: &Plan, number: u8, random: &mut Random) -> u8 {
    let nodes = u64::from(plan.nodes);
    let any = random.range(1, nodes - 1);
    ((u64::from(number) + random.pick(&[1, nodes - 1, any, any])) % nodes) as u8
}

/// Off, or due from the last tick to `most` ticks after it.
fn timer(last: u32, most: u32, random: &mut Random) -> Option<u32> {
    let later = random.range(0, u64::from(most)) as u32;
    random.pick(&[None, Some(last), Some(last + later.min(3)), Some(last + later), Some(last + later), Some(last + most)])
}

/// Some of the nodes below N, none or all.
fn some_list(plan: &Plan, random: &mut Random) -> u64 {
    let all = u64::MAX >> (64 - plan.nodes);
    let (half, few) = (random.draw() & all, random.draw() & random.draw() & random.draw() & all);
    random.pick(&[0, half, half, few, few, all])
}

/// A live node does not list itself, nor have itself as emitter or observer with the timer on; a crashed one may. None lists its emitter, and
/// what any of them marks is part of its list.
fn node(plan: &Plan, last: u32, number: u8, alive: bool, density: u64, random: &mut Random) -> Node {
    let alone = plan.nodes == 1;
    let list = (0..plan.nodes).filter(|_| random.range(1, 4) <= density).fold(0, |list, node| list | 1u64 << node);
    let mut node = Node {
        number,
        alive,
        emitter: if alone { 0 } else { other_node(plan, number, random) },
        observer: if alone { 0 } else { other_node(plan, number, random) },
        watch: timer(last, 2 * plan.timeout, random).filter(|_| !alone),
        heartbeat: timer(last, plan.period, random).filter(|_| !alone),
        dead_list: list & !(1 << number),
        mark: some_list(plan, random),
    };
    if node.watch.is_none() || !alive {
        node.emitter = random.pick(&[node.emitter, number]);
    }
    if node.heartbeat.is_none() || !alive {
        node.observer = random.pick(&[node.observer, number]);
    }
    if !alive {
        node.watch = random.pick(&[node.watch, Some(0)]);
        node.dead_list = list;
    }
    node.dead_list &= !(1 << node.emitter);
    node.mark &= node.dead_list;
    node
}

/// Some reports are of their receiver's emitter, and some heartbeats are its own. What a heartbeat names may be any nodes, its sender and its
/// receiver among them.
fn messages(plan: &Plan, last: u32, nodes: &[Node], random: &mut Random) -> Vec<(u32, Message)> {
    let count = if plan.nodes == 1 { 0 } else { random.pick(&[0, 1, 5, 5, 40, 40, 300, 2_040, 2_048]) };
    let gap = random.pick(&[1, 3, 1_000_000]);
    let mut number = 0;
    let one = |_| {
        number += random.range(1, gap);
        let receiver = some_node(plan, random);
        let (any, emitter) = (some_node(plan, random), nodes[usize::from(receiver)].emitter);
        let another = other_node(plan, receiver, random);
        let sender = if emitter == receiver { another } else { random.pick(&[another, another, emitter]) };
        let subject = random.pick(&[any, any, any, emitter]);
        let list = some_list(plan, random);
        let content = random.pick(&[Content::Heartbeat { list }, Content::NewObserver, Content::Report { subject }]);
        let due = last + random.range(0, u64::from(plan.delay)) as u32;
        (due, Message { number, sender, receiver, content })
    };
    (0..count).map(one).collect()
}

/// Puts two numbers of the ring's order in each other's place, where the store has a Q line.
pub fn reorder(bytes: &mut [u8], random: &mut Random) {
    let count = layout::get(bytes, layout::ORDERED, 0);
    if count > 0 {
        let [one, other] = [0; 2].map(|_| random.below(count) as usize);
        let nodes = [one, other].map(|place| layout::get(bytes, layout::ORDER, place));
        layout::put(bytes, layout::ORDER, one, nodes[1]);
        layout::put(bytes, layout::ORDER, other, nodes[0]);
    }
}

/// Changes a byte that holds something, often to what another such byte could be.
pub fn change(bytes: &mut [u8], used: &[usize], random: &mut Random) {
    let place = random.pick(used);
    let old = bytes[place];
    let (bit, node) = (1 << random.range(0, 7), random.range(0, 64) as u8);
    let (letter, another) = (random.pick(b"HOR"), bytes[random.pick(used)]);
    bytes[place] = random.pick(&[old ^ bit, old.wrapping_add(1), old.wrapping_sub(1), node, letter, another]);
}
