//! Rules 5 to 10 as document 01 says them.

use super::net::Net;
use super::slip::Slip;
use crate::answer::Refusal;
use crate::limits::REACH;
use crate::map::Map;
use crate::point::{side, Point};

/// The first refusal among 5 to 10.
pub fn fault(map: &Map, slip: Option<Slip>) -> Option<Refusal> {
    let (vertices, edges) = (map.vertices.len(), map.edges.len());
    let place = |n: u16, found: Option<usize>| found.map(|place| Refusal::new(n, place));
    place(5, (0..vertices).find(|&v| beyond(map.vertices[v])))
        .or_else(|| {
            let earlier = |v: usize| (0..v).any(|w| map.vertices[w] == map.vertices[v]);
            place(6, (0..vertices).find(|&v| earlier(v)))
        })
        .or_else(|| place(7, (0..edges).find(|&k| bad_ends(map, k))))
        .or_else(|| {
            let other = |j: usize, k: usize| j < k || (slip != Some(Slip::LaterEdge) && j > k);
            let clashing = |k: usize| (0..edges).find(|&j| other(j, k) && clash(map, j, k));
            let mut found = (0..edges).filter_map(|k| clashing(k).map(|j| (k, j)));
            found.next().map(|(k, j)| Refusal::new(8, k).beside(j))
        })
        .or_else(|| {
            let ends = |v: usize, k: usize| {
                map.edges[k].from as usize == v || map.edges[k].to as usize == v
            };
            place(9, (0..vertices).find(|&v| !(0..edges).any(|k| ends(v, k))))
        })
        .or_else(|| place(10, disagree(map, slip)))
}

fn beyond((x, y): (i16, i16)) -> bool {
    [x, y].iter().any(|&c| (c as i64) < -REACH || (c as i64) > REACH)
}

fn bad_ends(map: &Map, k: usize) -> bool {
    let edge = map.edges[k];
    let last = edge.from.max(edge.to) as usize;
    last >= map.vertices.len() || edge.from == edge.to
}

/// Two edges share a point that is not an end of both if they cross, if an end of one lies
/// within the other, or if they have the same two ends.
fn clash(map: &Map, j: usize, k: usize) -> bool {
    let ([a, b], [c, d]) = (map.segment(j).ends(), map.segment(k).ends());
    let crosses =
        side(&a, &b, &c) * side(&a, &b, &d) < 0 && side(&c, &d, &a) * side(&c, &d, &b) < 0;
    let within =
        |p: &Point, s: &Point, t: &Point| side(s, t, p) == 0 && s.min(t) < p && p < s.max(t);
    let same = a.min(b) == c.min(d) && a.max(b) == c.max(d);
    crosses
        || same
        || within(&a, &c, &d)
        || within(&b, &c, &d)
        || within(&c, &a, &b)
        || within(&d, &a, &b)
}

/// "Labels disagree at a half-edge if its label differs from its follower's, or if it is the
/// greatest-angle half-edge that makes its walk a hole walk and its label differs from that of
/// the half-edge seen west in the same map, or from 0 where the outside is seen."
fn disagree(map: &Map, slip: Option<Slip>) -> Option<usize> {
    let net = Net::of(map, slip);
    let outgoing = net.outgoing();
    let followers: Vec<usize> = (0..net.half_edges()).map(|h| net.follower(&outgoing, h)).collect();
    let follower_differs = |h: usize| map.label(h) != map.label(followers[h]);
    let seen_differs = |h: usize| {
        let hole = net.hole_mark(&outgoing, &net.walk(&followers, h)) == Some(h);
        hole && map.label(h) != seen_label(map, &net, &followers, h)
    };
    let half_edges = 0..net.half_edges();
    if slip == Some(Slip::FollowersFirst) {
        let first = half_edges.clone().find(|&h| follower_differs(h));
        return first.or_else(|| half_edges.clone().find(|&h| seen_differs(h)));
    }
    half_edges.into_iter().find(|&h| follower_differs(h) || seen_differs(h))
}

/// The label of the half-edge seen west from the origin of h, or 0 where the outside is seen.
fn seen_label(map: &Map, net: &Net, followers: &[usize], h: usize) -> u16 {
    match (net.seen(&net.points[net.origin(h)], None), net.slip) {
        (None, _) | (_, Some(Slip::OutsideOnly)) => 0,
        (Some(g), Some(Slip::WalkSeen)) => {
            map.label(net.walk(followers, g).into_iter().min().unwrap_or(g))
        }
        (Some(g), _) => map.label(g),
    }
}
