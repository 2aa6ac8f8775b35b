//! Max flow by Dinic's algorithm: phases of shortest augmenting paths.

use std::collections::VecDeque;

/// Each edge stands beside its reverse: edge e and e ^ 1 belong together, and the
/// flow on e is the room on e ^ 1.
struct Edge {
    to: usize,
    room: u32,
}

/// A network of nodes 0, 1, .. with a flow in it, at first none.
pub struct Network {
    edges: Vec<Edge>,
    leaving: Vec<Vec<usize>>,
}

impl Network {
    pub fn new(nodes: usize) -> Self {
        Network {
            edges: Vec::new(),
            leaving: vec![Vec::new(); nodes],
        }
    }

    /// Adds an edge and gives its number.
    pub fn add_edge(&mut self, from: usize, to: usize, capacity: u32) -> usize {
        let edge = self.edges.len();
        self.edges.push(Edge { to, room: capacity });
        self.edges.push(Edge { to: from, room: 0 });
        self.leaving[from].push(edge);
        self.leaving[to].push(edge + 1);
        edge
    }

    /// The flow on an edge.
    pub fn flow_on(&self, edge: usize) -> u32 {
        self.edges[edge ^ 1].room
    }

    /// Sends one unit along a path of edges from source to sink, if each has room.
    pub fn send_along(&mut self, path: &[usize]) -> bool {
        if path.iter().any(|&e| self.edges[e].room == 0) {
            return false;
        }
        for &e in path {
            self.move_flow(e, 1);
        }
        true
    }

    fn move_flow(&mut self, edge: usize, amount: u32) {
        self.edges[edge].room -= amount;
        self.edges[edge ^ 1].room += amount;
    }

    /// Raises the flow in the network until no path from source to sink has room.
    pub fn maximise(&mut self, source: usize, sink: usize) {
        loop {
            let distance = self.distances(source);
            if distance[sink].is_none() {
                return;
            }
            let mut next = vec![0; self.leaving.len()];
            while self.augment(source, sink, u32::MAX, &distance, &mut next) > 0 {}
        }
    }

    /// Edges on a shortest way with room from `source` to each node, or none.
    fn distances(&self, source: usize) -> Vec<Option<u32>> {
        let mut distance = vec![None; self.leaving.len()];
        distance[source] = Some(0);
        let mut queue = VecDeque::from([source]);
        while let Some(node) = queue.pop_front() {
            for &e in &self.leaving[node] {
                let Edge { to, room } = self.edges[e];
                if room > 0 && distance[to].is_none() {
                    distance[to] = distance[node].map(|d: u32| d + 1);
                    queue.push_back(to);
                }
            }
        }
        distance
    }

    /// Sends up to `limit` from `node` to the sink along one path on which the
    /// distance rises; `next` says for each node which of its edges to try next.
    fn augment(
        &mut self,
        node: usize,
        sink: usize,
        limit: u32,
        distance: &[Option<u32>],
        next: &mut [usize],
    ) -> u32 {
        if node == sink {
            return limit;
        }
        while next[node] < self.leaving[node].len() {
            let e = self.leaving[node][next[node]];
            let Edge { to, room } = self.edges[e];
            if room > 0 && distance[to] == distance[node].map(|d| d + 1) {
                let sent = self.augment(to, sink, limit.min(room), distance, next);
                if sent > 0 {
                    self.move_flow(e, sent);
                    return sent;
                }
            }
            next[node] += 1;
        }
        0
    }

    /// The nodes that `source` reaches along edges with room. Once the flow is
    /// greatest, this is the source's side of the least cut nearest to it: it is
    /// contained in the source's side of every other least cut.
    pub fn reached_from(&self, source: usize) -> Vec<bool> {
        self.distances(source).iter().map(Option::is_some).collect()
    }
}

#[cfg(test)]
mod tests {
    use super::*;

    #[test]
    fn a_flow_goes_back_where_it_must() {
        // Two rations that both like node 3; only one may stay there.
        let mut network = Network::new(6);
        let (source, sink) = (0, 5);
        let out = [
            network.add_edge(source, 1, 1),
            network.add_edge(source, 2, 1),
        ];
        let greedy = network.add_edge(1, 3, 1);
        network.add_edge(2, 3, 1);
        network.add_edge(1, 4, 1);
        let into = network.add_edge(3, sink, 1);
        network.add_edge(4, sink, 1);
        assert!(network.send_along(&[out[0], greedy, into]));
        assert!(!network.send_along(&[out[0], greedy, into]));
        network.maximise(source, sink);
        assert_eq!(network.flow_on(out[0]) + network.flow_on(out[1]), 2);
        assert_eq!(network.flow_on(greedy), 0);
    }

    #[test]
    fn the_nearest_cut_is_reached() {
        // A chain of two edges of capacity 1: the cut nearest the source is the first.
        let mut network = Network::new(4);
        network.add_edge(0, 1, 3);
        network.add_edge(1, 2, 1);
        network.add_edge(2, 3, 1);
        network.maximise(0, 3);
        assert_eq!(network.reached_from(0), [true, true, false, false]);
    }
}
