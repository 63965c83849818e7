//! The run of `bench` over std's `BTreeMap` and over an ordinary red-black tree with links by index, each with a
//! queue that says which key expires next.
use std::collections::{BTreeMap, VecDeque};
use std::time::Instant;

const TIMED: u32 = 200_000;
const NONE: u32 = u32::MAX;

fn drawn(time: u32) -> i32 {
    let mixed = (time ^ (time >> 15)).wrapping_mul(0x2c1b_3c6d);
    (mixed ^ (mixed >> 12)).wrapping_mul(0x297a_2d39) as i32
}

trait Keys {
    fn contains(&self, place: i32) -> bool;
    fn insert(&mut self, place: i32, value: u32);
    fn remove(&mut self, place: i32);
    fn below(&self, place: i32) -> u32;
}

impl Keys for BTreeMap<i32, u32> {
    fn contains(&self, place: i32) -> bool {
        self.contains_key(&place)
    }
    fn insert(&mut self, place: i32, value: u32) {
        BTreeMap::insert(self, place, value);
    }
    fn remove(&mut self, place: i32) {
        BTreeMap::remove(self, &place);
    }
    fn below(&self, place: i32) -> u32 {
        self.range(..place).next_back().map_or(0, |(_, &value)| value)
    }
}

#[derive(Clone, Copy)]
struct Node {
    parent: u32,
    child: [u32; 2],
    red: bool,
    place: i32,
    value: u32,
}

struct RedBlack {
    nodes: Vec<Node>,
    spare: Vec<u32>,
    root: u32,
}

impl RedBlack {
    fn new() -> Self {
        RedBlack { nodes: Vec::new(), spare: Vec::new(), root: NONE }
    }
    fn node(&self, i: u32) -> &Node {
        &self.nodes[i as usize]
    }
    fn node_mut(&mut self, i: u32) -> &mut Node {
        &mut self.nodes[i as usize]
    }
    fn is_red(&self, i: u32) -> bool {
        i != NONE && self.node(i).red
    }
    fn side(&self, i: u32) -> usize {
        let parent = self.node(i).parent;
        usize::from(parent != NONE && self.node(parent).child[1] == i)
    }
    fn hang(&mut self, parent: u32, side: usize, i: u32) {
        if parent == NONE {
            self.root = i;
        } else {
            self.node_mut(parent).child[side] = i;
        }
        if i != NONE {
            self.node_mut(i).parent = parent;
        }
    }
    // Lifts the child on a side over its parent.
    fn lift(&mut self, i: u32, side: usize) -> u32 {
        let child = self.node(i).child[side];
        let (parent, at) = (self.node(i).parent, self.side(i));
        let inner = self.node(child).child[1 - side];
        self.hang(i, side, inner);
        self.hang(parent, at, child);
        self.hang(child, 1 - side, i);
        child
    }
    fn find(&self, place: i32) -> u32 {
        let mut at = self.root;
        while at != NONE && self.node(at).place != place {
            at = self.node(at).child[usize::from(self.node(at).place < place)];
        }
        at
    }
    fn mend_insertion(&mut self, mut i: u32) {
        loop {
            let parent = self.node(i).parent;
            if parent == NONE {
                self.node_mut(i).red = false;
                return;
            }
            if !self.node(parent).red {
                return;
            }
            let above = self.node(parent).parent;
            let side = self.side(parent);
            let uncle = self.node(above).child[1 - side];
            if self.is_red(uncle) {
                self.node_mut(uncle).red = false;
                self.node_mut(parent).red = false;
                self.node_mut(above).red = true;
                i = above;
                continue;
            }
            if self.side(i) != side {
                self.lift(parent, 1 - side);
            }
            let top = self.lift(above, side);
            self.node_mut(top).red = false;
            self.node_mut(above).red = true;
            return;
        }
    }
    fn mend_removal(&mut self, mut parent: u32, mut side: usize) {
        while parent != NONE {
            let mut sibling = self.node(parent).child[1 - side];
            if self.node(sibling).red {
                self.lift(parent, 1 - side);
                self.node_mut(sibling).red = false;
                self.node_mut(parent).red = true;
                sibling = self.node(parent).child[1 - side];
            }
            let [inner, outer] = [self.node(sibling).child[side], self.node(sibling).child[1 - side]];
            if !self.is_red(inner) && !self.is_red(outer) {
                self.node_mut(sibling).red = true;
                if self.node(parent).red {
                    self.node_mut(parent).red = false;
                    return;
                }
                side = self.side(parent);
                parent = self.node(parent).parent;
                continue;
            }
            if !self.is_red(outer) {
                self.lift(sibling, side);
                self.node_mut(sibling).red = true;
                sibling = inner;
            }
            let outer = self.node(sibling).child[1 - side];
            self.lift(parent, 1 - side);
            let red = self.node(parent).red;
            self.node_mut(sibling).red = red;
            self.node_mut(parent).red = false;
            self.node_mut(outer).red = false;
            return;
        }
    }
}

impl Keys for RedBlack {
    fn contains(&self, place: i32) -> bool {
        self.find(place) != NONE
    }
    fn insert(&mut self, place: i32, value: u32) {
        let (mut parent, mut side, mut at) = (NONE, 0, self.root);
        while at != NONE {
            parent = at;
            side = usize::from(self.node(at).place < place);
            at = self.node(at).child[side];
        }
        let node = Node { parent, child: [NONE, NONE], red: true, place, value };
        let i = match self.spare.pop() {
            Some(i) => {
                *self.node_mut(i) = node;
                i
            }
            None => {
                self.nodes.push(node);
                self.nodes.len() as u32 - 1
            }
        };
        self.hang(parent, side, i);
        self.mend_insertion(i);
    }
    fn remove(&mut self, place: i32) {
        let mut i = self.find(place);
        if i == NONE {
            return;
        }
        if self.node(i).child[0] != NONE && self.node(i).child[1] != NONE {
            let mut next = self.node(i).child[1];
            while self.node(next).child[0] != NONE {
                next = self.node(next).child[0];
            }
            let Node { place, value, .. } = *self.node(next);
            self.node_mut(i).place = place;
            self.node_mut(i).value = value;
            i = next;
        }
        let Node { parent, child, red, .. } = *self.node(i);
        let only = if child[0] == NONE { child[1] } else { child[0] };
        let side = self.side(i);
        self.hang(parent, side, only);
        self.spare.push(i);
        if red {
            return;
        }
        if self.is_red(only) {
            self.node_mut(only).red = false;
            return;
        }
        self.mend_removal(parent, side);
    }
    fn below(&self, place: i32) -> u32 {
        let (mut at, mut best) = (self.root, 0);
        while at != NONE {
            let node = self.node(at);
            if node.place < place {
                best = node.value;
                at = node.child[1];
            } else {
                at = node.child[0];
            }
        }
        best
    }
}

fn step_on(keys: &mut impl Keys, queue: &mut VecDeque<(u32, i32)>, live: u32, from: u32, to: u32) -> u32 {
    let mut sum = 0u32;
    for time in from..to {
        while queue.front().is_some_and(|&(end, _)| end <= time) {
            if let Some((_, place)) = queue.pop_front() {
                keys.remove(place);
            }
        }
        let place = drawn(time);
        if !keys.contains(place) {
            keys.insert(place, time);
            queue.push_back((time.wrapping_add(live), place));
        }
        sum = sum.wrapping_add(keys.below(drawn(time ^ 0x5555_5555)));
    }
    sum
}

fn sweep(name: &str, keys: &mut impl Keys, live: u32) {
    let mut queue = VecDeque::new();
    let first = step_on(keys, &mut queue, live, 0, live);
    let start = Instant::now();
    let sum = step_on(keys, &mut queue, live, live, live.wrapping_add(TIMED));
    let nanoseconds = start.elapsed().as_nanos() / (u128::from(TIMED) + 1);
    eprintln!("{name} of {live}: {nanoseconds} ns");
    println!("{name} of {live}: sums {first} and {sum}");
}

fn main() {
    for live in [1_000, 10_000, 100_000, 1_000_000] {
        sweep("BTreeMap", &mut BTreeMap::new(), live);
        sweep("red-black tree", &mut RedBlack::new(), live);
    }
}
