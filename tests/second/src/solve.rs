//! The least solution of the rules by a worklist over constraints.
//!
//! Every row and every procedure is a node with three set variables L, O and
//! M. A rule becomes constraints between the variables: inclusions, and
//! crossings of one node's O with another's L into a third's M. Each new
//! member of a variable is put on the worklist once and carried along the
//! constraints that speak of this variable, until nothing is left to carry.

use crate::sets::Summary;
use crate::table::Table;

/// A member of a variable of a node.
enum Fact {
    Runs(usize, usize),
    Left(usize, usize),
    Pair(usize, usize, usize),
}

/// The constraints that start at the variables of one node.
#[derive(Default, Clone)]
struct Out {
    /// L of this node is inside L of those.
    l_in_l: Vec<usize>,
    /// L of this node is inside O of those.
    l_in_o: Vec<usize>,
    /// O of this node is inside O of those.
    o_in_o: Vec<usize>,
    /// M of this node is inside M of those.
    m_in_m: Vec<usize>,
    /// O of this node crossed with L of the first is inside M of the second.
    o_crosses: Vec<(usize, usize)>,
    /// L of this node crossed with O of the first is inside M of the second.
    l_crosses: Vec<(usize, usize)>,
}

struct Net {
    out: Vec<Out>,
    held: Vec<Summary>,
    work: Vec<Fact>,
}

impl Net {
    fn runs(&mut self, node: usize, l: usize) {
        if self.held[node].l.put(l) {
            self.work.push(Fact::Runs(node, l));
        }
    }

    fn left(&mut self, node: usize, l: usize) {
        if self.held[node].o.put(l) {
            self.work.push(Fact::Left(node, l));
        }
    }

    fn pair(&mut self, node: usize, a: usize, b: usize) {
        if self.held[node].m.put(a, b) {
            self.work.push(Fact::Pair(node, a, b));
        }
    }

    fn both(&mut self, node: usize, a: usize, b: usize) {
        self.pair(node, a, b);
        self.pair(node, b, a);
    }

    fn all_three(&mut self, from: usize, to: usize) {
        self.out[from].l_in_l.push(to);
        self.out[from].o_in_o.push(to);
        self.out[from].m_in_m.push(to);
    }

    fn crossing(&mut self, o_of: usize, l_of: usize, into: usize) {
        self.out[o_of].o_crosses.push((l_of, into));
        self.out[l_of].l_crosses.push((o_of, into));
    }

    fn carry(&mut self, fact: Fact) {
        match fact {
            Fact::Runs(node, l) => {
                for at in 0..self.out[node].l_in_l.len() {
                    let to = self.out[node].l_in_l[at];
                    self.runs(to, l);
                }
                for at in 0..self.out[node].l_in_o.len() {
                    let to = self.out[node].l_in_o[at];
                    self.left(to, l);
                }
                for at in 0..self.out[node].l_crosses.len() {
                    let (other, into) = self.out[node].l_crosses[at];
                    for o in self.held[other].o.clone().members() {
                        self.both(into, o, l);
                    }
                }
            }
            Fact::Left(node, o) => {
                for at in 0..self.out[node].o_in_o.len() {
                    let to = self.out[node].o_in_o[at];
                    self.left(to, o);
                }
                for at in 0..self.out[node].o_crosses.len() {
                    let (other, into) = self.out[node].o_crosses[at];
                    for l in self.held[other].l.clone().members() {
                        self.both(into, o, l);
                    }
                }
            }
            Fact::Pair(node, a, b) => {
                for at in 0..self.out[node].m_in_m.len() {
                    let to = self.out[node].m_in_m[at];
                    self.pair(to, a, b);
                }
            }
        }
    }
}

/// The summaries of the procedures of an admitted table.
pub fn solve(table: &Table) -> Vec<Summary> {
    let rows = table.rows();
    let procedures = table.roots.len();
    let procedure = |p: usize| rows + p;
    let mut net = Net {
        out: vec![Out::default(); rows + procedures],
        held: vec![Summary::empty(); rows + procedures],
        work: Vec::new(),
    };
    for row in 0..rows {
        let x = table.xs[row] as usize;
        let y = table.ys[row] as usize;
        match table.kinds[row] {
            0 => {}
            1 => net.runs(row, x),
            2 => {
                net.all_three(x, row);
                net.all_three(y, row);
                net.crossing(x, y, row);
            }
            3 => {
                net.all_three(x, row);
                net.crossing(x, x, row);
            }
            4 => {
                net.out[x].m_in_m.push(row);
                net.out[x].l_in_l.push(row);
                net.out[x].l_in_o.push(row);
            }
            5 => {
                net.out[x].m_in_m.push(row);
                net.out[x].l_in_l.push(row);
            }
            6 => net.all_three(procedure(x), row),
            kind => unreachable!("kind {kind} in an admitted table"),
        }
    }
    for (p, &root) in table.roots.iter().enumerate() {
        net.all_three(root as usize, procedure(p));
    }
    while let Some(fact) = net.work.pop() {
        net.carry(fact);
    }
    net.held.split_off(rows)
}
