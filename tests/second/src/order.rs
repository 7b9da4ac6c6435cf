//! Before, the N and the reduced orders, each straight from its definition.

/// `before[u][v]`: job u is before job v.
pub type Before = Vec<Vec<bool>>;

/// The followed-on order: from each job, a search over the written orders.
pub fn before(count: usize, orders: &[(usize, usize)]) -> Before {
    let mut next = vec![Vec::new(); count];
    for &(u, v) in orders {
        next[u].push(v);
    }
    let mut before = vec![vec![false; count]; count];
    for u in 0..count {
        let mut to_visit = next[u].clone();
        while let Some(v) = to_visit.pop() {
            if !before[u][v] {
                before[u][v] = true;
                to_visit.extend(&next[v]);
            }
        }
    }
    before
}

/// Two different jobs, neither before the other.
pub fn free(before: &Before, u: usize, v: usize) -> bool {
    u != v && !before[u][v] && !before[v][u]
}

/// The first N: least a, then least b, c, d.
pub fn first_n(before: &Before) -> Option<[usize; 4]> {
    let count = before.len();
    for a in 0..count {
        for b in 0..count {
            if !free(before, a, b) {
                continue;
            }
            let (after_a, after_b) = (&before[a], &before[b]);
            let for_c: Vec<usize> = (0..count).filter(|&c| after_a[c] && after_b[c]).collect();
            if for_c.is_empty() {
                continue;
            }
            let for_d: Vec<usize> = (0..count)
                .filter(|&d| after_b[d] && free(before, a, d))
                .collect();
            for &c in &for_c {
                for &d in &for_d {
                    if free(before, c, d) {
                        return Some([a, b, c, d]);
                    }
                }
            }
        }
    }
    None
}

/// The pairs u, v with u before v and no job after u and before v, by first
/// job, then second.
pub fn reduced(before: &Before) -> Vec<(usize, usize)> {
    let count = before.len();
    let mut orders = Vec::new();
    for u in 0..count {
        for v in 0..count {
            if before[u][v] && !(0..count).any(|w| before[u][w] && before[w][v]) {
                orders.push((u, v));
            }
        }
    }
    orders
}
