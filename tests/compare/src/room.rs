//! What refusals 9 to 12 count, written from document 01 apart from the Rust's run.

use std::collections::HashMap;

use crate::image::MAX_GATE_INPUTS;
use crate::net::{is_inverted, is_node, node, node_of, Family, Gate, Kind, Net};

/// 9: an And2, And3 or n-ary And lists a signal twice.
pub fn has_repeat(net: &Net) -> bool {
    net.nodes.iter().any(|g| {
        let and = g.kind.family() == Some(Family::And);
        and && (0..g.ins.len()).any(|k| g.ins[..k].contains(&g.ins[k]))
    })
}

/// 10: a sorted network's gates flattened, before cleanup; none once they list over 2,048 inputs.
pub fn flattened(net: &Net, limit: u32) -> Option<Vec<Gate>> {
    let mut gates: Vec<Gate> = Vec::new();
    let mut total = 0;
    for g in &net.nodes {
        let new = match g.kind.family() {
            None => g.clone(),
            Some(family) => merged(&gates, g, family, limit),
        };
        total += new.ins.len();
        if total > MAX_GATE_INPUTS {
            return None;
        }
        gates.push(new);
    }
    Some(gates)
}

/// The n-ary gate that a gate of a family becomes over the gates before it.
fn merged(before: &[Gate], g: &Gate, family: Family, limit: u32) -> Gate {
    let mut ins: Vec<u32> = Vec::new();
    for (k, s) in g.ins.iter().enumerate() {
        let left = g.ins.len() - k - 1;
        let inner = if is_node(*s) && !is_inverted(*s) {
            let named = &before[node_of(*s) as usize];
            (named.kind.family() == Some(family)).then_some(&named.ins)
        } else {
            None
        };
        match inner {
            Some(inner) if ins.len() + inner.len() + left <= limit as usize => ins.extend(inner),
            _ => ins.push(*s),
        }
    }
    let kind = match family {
        Family::And => Kind::And,
        Family::Xor => Kind::Xor,
    };
    Gate::new(kind, &ins)
}

/// The inputs of each gate of a pass: of the family, with two or more inputs.
pub fn lists(net: &Net, family: Family) -> Vec<Vec<u32>> {
    let gates = net.nodes.iter();
    gates
        .filter(|g| g.kind.family() == Some(family) && g.ins.len() >= 2)
        .map(|g| g.ins.clone())
        .collect()
}

/// Each list without the signals used once in the whole pass, and those signals.
fn set_aside(lists: &[Vec<u32>]) -> (Vec<Vec<u32>>, Vec<Vec<u32>>) {
    let mut uses: HashMap<u32, usize> = HashMap::new();
    for s in lists.iter().flatten() {
        *uses.entry(*s).or_default() += 1;
    }
    let pick = |once: bool| {
        let kept = |v: &Vec<u32>| {
            let signals = v.iter().copied();
            signals.filter(|s| (uses[s] == 1) == once).collect()
        };
        lists.iter().map(kept).collect()
    };
    (pick(false), pick(true))
}

/// 11: the sum of m(m-1)/2 over the gates of a pass.
pub fn pair_places(lists: &[Vec<u32>]) -> usize {
    let (left, _) = set_aside(lists);
    left.iter()
        .map(|v| v.len() * v.len().saturating_sub(1) / 2)
        .sum()
}

/// 12: nodes and gate inputs once the built pairs and joins of a pass are appended and its gates
/// are Bufs.
pub fn grown(net: &Net, family: Family, built: usize) -> (usize, usize) {
    let lists = lists(net, family);
    let in_pass: usize = lists.iter().map(Vec::len).sum();
    (
        net.nodes.len() + built,
        net.gate_inputs() - in_pass + lists.len() + 2 * built,
    )
}

/// Document 01's factoring of lists without repeats, counting afresh at each step: the pairs and
/// joins in the order they are made, and what each list becomes.
pub fn factoring(lists: &[Vec<u32>], first: u32) -> (Vec<(u32, u32)>, Vec<u32>) {
    let (mut left, aside) = set_aside(lists);
    let mut built = Vec::new();
    for _ in 0..2 {
        for k in 0..left.len() {
            if let [a, b] = left[k][..] {
                replace(&mut left, (a.min(b), a.max(b)), first, &mut built);
            }
        }
    }
    while let Some(pair) = best_pair(&left) {
        replace(&mut left, pair, first, &mut built);
    }
    for (v, own) in left.iter_mut().zip(&aside) {
        v.extend(own);
    }
    let mut became = Vec::new();
    for mut v in left {
        while v.len() > 1 {
            let mut next = Vec::new();
            for two in v.chunks(2) {
                if let [a, b] = *two {
                    next.push(node(first + built.len() as u32));
                    built.push((a, b));
                } else {
                    next.push(two[0]);
                }
            }
            v = next;
        }
        became.push(v[0]);
    }
    (built, became)
}

/// Takes both signals from every list that holds them and puts the new node last there.
fn replace(left: &mut [Vec<u32>], pair: (u32, u32), first: u32, built: &mut Vec<(u32, u32)>) {
    let new = node(first + built.len() as u32);
    built.push(pair);
    for v in left.iter_mut() {
        if v.contains(&pair.0) && v.contains(&pair.1) {
            v.retain(|s| *s != pair.0 && *s != pair.1);
            v.push(new);
        }
    }
}

/// The pair that most lists hold; of those the one with the smallest words.
fn best_pair(left: &[Vec<u32>]) -> Option<(u32, u32)> {
    let mut counts: HashMap<(u32, u32), usize> = HashMap::new();
    for v in left {
        for k in 0..v.len() {
            for l in k + 1..v.len() {
                let pair = (v[k].min(v[l]), v[k].max(v[l]));
                *counts.entry(pair).or_default() += 1;
            }
        }
    }
    let best = counts
        .into_iter()
        .min_by_key(|(p, count)| (usize::MAX - count, *p));
    best.map(|(p, _)| p)
}
