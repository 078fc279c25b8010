//! Makes a call on which the library differs smaller while it still differs.

use crate::image;
use crate::judge::Call;
use crate::net::{is_input, is_node, node, node_of, Net};

/// The smallest call found by trying smaller ones, at most so many.
pub fn smallest(call: &Call, mut tries: usize, fails: &mut dyn FnMut(&Call) -> bool) -> Call {
    let mut best = call.clone();
    loop {
        let mut better = None;
        for candidate in candidates(&best) {
            if tries == 0 {
                return best;
            }
            tries -= 1;
            if fails(&candidate) {
                better = Some(candidate);
                break;
            }
        }
        match better {
            Some(candidate) => best = candidate,
            None => return best,
        }
    }
}

fn candidates(call: &Call) -> Vec<Call> {
    let mut images = Vec::new();
    if let Ok(read) = image::read(&call.image) {
        if read.body > 0 {
            images.push(call.image[read.body..].to_vec());
        }
        images.extend(smaller(&read.net).iter().map(image::write));
    } else {
        let end = call.image.len();
        for cut in [end / 2, end / 4, 16, 4, 1] {
            if cut > 0 && cut < end {
                images.push(call.image[cut..].to_vec());
            }
        }
    }
    let mut ret = Vec::new();
    for image in images {
        let ample = Call::ample(&image);
        ret.push(Call {
            image,
            ..call.clone()
        });
        ret.push(Call {
            number: call.number,
            ..ample
        });
    }
    for number in [0, call.number / 2, call.number.saturating_sub(1)] {
        if number < call.number {
            ret.push(Call {
                number,
                ..call.clone()
            });
        }
    }
    ret
}

/// Networks a step smaller: without an output, a node or an input of an n-ary gate, or with a
/// simpler signal.
fn smaller(net: &Net) -> Vec<Net> {
    let mut ret = Vec::new();
    let count = net.nodes.len();
    for half in [count / 2, 3 * count / 4] {
        if half > 0 && half < count {
            ret.push(without(net, &|v| v >= half));
            ret.push(without(net, &|v| v < count - half));
        }
    }
    for v in (0..count).rev() {
        ret.push(without(net, &|w| w == v));
    }
    for k in 0..net.outs.len() {
        let mut less = net.clone();
        less.outs.remove(k);
        ret.push(less);
    }
    for (v, g) in net.nodes.iter().enumerate() {
        for k in 0..g.ins.len() {
            if g.kind.is_nary() {
                let mut less = net.clone();
                less.nodes[v].ins.remove(k);
                ret.push(less);
            }
            for simple in [0, 1, crate::net::input(0), g.ins[k] & !1] {
                if is_simpler(simple, g.ins[k]) && (net.inputs > 0 || !is_input(simple)) {
                    let mut less = net.clone();
                    less.nodes[v].ins[k] = simple;
                    ret.push(less);
                }
            }
        }
    }
    let used = net.nodes.iter().flat_map(|g| &g.ins).chain(&net.outs);
    let inputs = used
        .filter(|s| is_input(**s))
        .map(|s| crate::net::input_of(*s) + 1);
    let inputs = inputs.max().unwrap_or(0);
    if inputs < net.inputs {
        ret.push(Net {
            inputs,
            ..net.clone()
        });
    }
    ret
}

/// Constants before input 0 before other signals, plain before inverted.
fn is_simpler(a: u32, b: u32) -> bool {
    let rank = |s: u32| match s {
        0 => 0,
        1 => 1,
        _ if s & !1 == crate::net::input(0) => 2 + (s & 1),
        _ if is_input(s) => 4 + (s & 1),
        _ => 6 + (s & 1),
    };
    rank(a) < rank(b)
}

/// The network without some nodes: what named them names zero.
fn without(net: &Net, dropped: &dyn Fn(usize) -> bool) -> Net {
    let mut number = Vec::new();
    let mut next = 0;
    for v in 0..net.nodes.len() {
        number.push(next);
        next += !dropped(v) as u32;
    }
    let map = |s: &u32| {
        if !is_node(*s) {
            *s
        } else if dropped(node_of(*s) as usize) {
            *s & 1
        } else {
            node(number[node_of(*s) as usize]) ^ (*s & 1)
        }
    };
    let kept = net.nodes.iter().enumerate().filter(|(v, _)| !dropped(*v));
    Net {
        inputs: net.inputs,
        nodes: kept
            .map(|(_, g)| {
                let mut g = g.clone();
                g.ins = g.ins.iter().map(map).collect();
                g
            })
            .collect(),
        outs: net.outs.iter().map(map).collect(),
    }
}
