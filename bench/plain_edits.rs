//! The edits of edits.sh by a plain program without proofs: drafts and a published policy, each an ordered set of rules; an index of
//! the published one, a map of users to their roles, and a log. Rules are removed and added again, each published. Prints the
//! nanoseconds of an edit over 1,000 rows and over 200,000, the least of three, and their ratio.
use std::collections::{BTreeMap, HashMap};
use std::hash::{BuildHasherDefault, Hash, Hasher};
use std::time::Instant;

#[derive(Default, Clone)]
struct Fx(u64);
impl Hasher for Fx {
    fn write(&mut self, bytes: &[u8]) {
        for chunk in bytes.chunks(8) {
            let mut word = [0u8; 8];
            word[..chunk.len()].copy_from_slice(chunk);
            let wide = u128::from(self.0 ^ u64::from_le_bytes(word) ^ 0x243f6a8885a308d3) * u128::from(0x9e3779b97f4a7c15u64 ^ self.0.rotate_left(17));
            self.0 = (wide as u64) ^ ((wide >> 64) as u64);
        }
    }
    fn finish(&self) -> u64 {
        self.0
    }
}
type Map<K, V> = HashMap<K, V, BuildHasherDefault<Fx>>;
type Rule = Vec<String>;

fn cut(line: &str) -> Rule {
    line.split(',').map(|field| field.trim().to_owned()).collect()
}

// An ordered set: the place in the order of each rule is a number that rises, or its rank and that number.
#[derive(Default)]
struct Set {
    keys: Map<Rule, (i64, u64)>,
    rows: BTreeMap<(i64, u64), Rule>,
    next: u64,
    ranked: bool,
}
impl Set {
    fn add(&mut self, rule: Rule) -> bool {
        if self.keys.contains_key(&rule) {
            return false;
        }
        let rank = if self.ranked { rule[1].parse().unwrap_or(i64::MAX) } else { 0 };
        self.next += 1;
        self.keys.insert(rule.clone(), (rank, self.next));
        self.rows.insert((rank, self.next), rule);
        true
    }
    fn remove(&mut self, rule: &Rule) -> bool {
        match self.keys.remove(rule) {
            Some(key) => self.rows.remove(&key).is_some(),
            None => false,
        }
    }
}

#[derive(Default)]
struct Policy {
    set: Set,
    index: Map<u64, Vec<(i64, u64)>>,
    users: Map<String, Vec<String>>,
    indexed: bool,
    roles: bool,
}
fn key(rule: &Rule) -> u64 {
    let mut hash = Fx::default();
    let first = if rule.len() > 5 { 2 } else { 1 };
    rule[first].hash(&mut hash);
    rule[first + 1].hash(&mut hash);
    hash.finish()
}
impl Policy {
    fn add(&mut self, rule: Rule) {
        let indexed = if self.indexed { Some(key(&rule)) } else { None };
        if self.roles {
            self.users.entry(rule[1].clone()).or_default().push(rule[2].clone());
        }
        let again = if indexed.is_some() { Some(rule.clone()) } else { None };
        self.set.add(rule);
        if let (Some(key), Some(rule)) = (indexed, again) {
            self.index.entry(key).or_default().push(self.set.keys[&rule]);
        }
    }
    fn remove(&mut self, rule: &Rule) {
        if self.indexed {
            let place = self.set.keys[rule];
            if let Some(list) = self.index.get_mut(&key(rule)) {
                list.retain(|one| *one != place);
            }
        }
        if self.roles {
            if let Some(list) = self.users.get_mut(&rule[1]) {
                if let Some(at) = list.iter().position(|one| *one == rule[2]) {
                    list.swap_remove(at);
                }
                if list.is_empty() {
                    self.users.remove(&rule[1]);
                }
            }
        }
        self.set.remove(rule);
    }
}

fn row(kind: &str, i: usize, n: usize) -> String {
    match kind {
        "ranked" => format!("p, {}, user{i:06}, data{i:06}, read, allow", i / 10),
        "roles" => format!("g, user{i:06}, role{}", i % (n / 100)),
        _ => format!("p, user{i:06}, data{i:06}, read"),
    }
}

fn policy(kind: &str, n: usize) -> (Policy, Set) {
    let mut policy = Policy::default();
    policy.indexed = kind != "roles";
    policy.roles = kind == "roles";
    policy.set.ranked = kind == "ranked";
    let mut drafts = Set::default();
    drafts.ranked = kind == "ranked";
    for i in 0..n {
        let rule = cut(&row(kind, i, n));
        policy.add(rule.clone());
        drafts.add(rule);
    }
    (policy, drafts)
}

fn edit_cost(kind: &str, n: usize, most: usize) -> f64 {
    let (mut policy, mut drafts) = policy(kind, n);
    let mut lines = Vec::new();
    for k in 0..most {
        let line = row(kind, (k * 7919) % n, n);
        lines.push((false, line.clone()));
        lines.push((true, line));
    }
    let mut log: Vec<(bool, Rule)> = Vec::new();
    let mut out = String::new();
    let before = Instant::now();
    for (adds, line) in &lines {
        let rule = cut(line);
        if *adds {
            drafts.add(rule.clone());
        } else {
            drafts.remove(&rule);
        }
        if *adds {
            policy.add(rule.clone());
        } else {
            policy.remove(&rule);
        }
        log.push((*adds, rule));
        out.push_str("published ");
        out.push_str(&log.len().to_string());
        out.push('\n');
    }
    let took = before.elapsed().as_nanos() as f64 / lines.len() as f64;
    assert!(policy.set.rows.len() == n && drafts.rows.len() == n && !out.is_empty());
    took
}

// Links among roles that are all linked: rows of distances beside the lists.
fn linked_cost(n: usize, most: usize) -> f64 {
    let mut roles = 0;
    while roles * (roles + 1) / 2 < n {
        roles += 1;
    }
    roles += 1;
    let mut links: Vec<Vec<bool>> = vec![vec![false; roles]; roles];
    let mut far = vec![vec![255u8; roles]; roles];
    let mut pairs = Vec::new();
    for i in 0..n {
        let below = ((1.0 + ((1 + 8 * i) as f64).sqrt()) / 2.0) as usize;
        let above = i - below * (below - 1) / 2;
        links[below][above] = true;
        far[below][above] = 1;
        pairs.push((below, above));
    }
    for a in 0..roles {
        far[a][a] = 0;
    }
    let before = Instant::now();
    for k in 0..most {
        let (from, to) = pairs[(k * 7919) % n];
        links[from][to] = false;
        // the rows whose shortest way went by it
        for a in 0..roles {
            if far[a][from] == 255 || far[a][to] != far[a][from] + 1 {
                continue;
            }
            for b in 0..roles {
                far[a][b] = if a == b { 0 } else if links[a][b] { 1 } else { 255 };
            }
            loop {
                let mut changed = false;
                for next in 0..roles {
                    if far[a][next] != 1 {
                        continue;
                    }
                    let other = std::mem::take(&mut far[next]);
                    let row = &mut far[a];
                    let mut lower = 0u8;
                    for (cell, way) in row.iter_mut().zip(&other) {
                        let sum = way.saturating_add(1);
                        lower |= u8::from(sum < *cell);
                        *cell = sum.min(*cell);
                    }
                    changed |= lower > 0;
                    far[next] = other;
                }
                if !changed {
                    break;
                }
            }
        }
        links[from][to] = true;
        for a in 0..roles {
            let near = far[a][from];
            if near == 255 {
                continue;
            }
            let other = far[to].clone();
            for (cell, way) in far[a].iter_mut().zip(&other) {
                *cell = (*cell).min(way.saturating_add(1).saturating_add(near));
            }
        }
    }
    before.elapsed().as_nanos() as f64 / (2 * most) as f64
}

fn main() {
    let most: usize = std::env::args().nth(1).map_or(20_000, |word| word.parse().unwrap());
    for kind in ["plain", "ranked", "roles"] {
        let few = (0..3).map(|_| edit_cost(kind, 1_000, most)).fold(f64::MAX, f64::min);
        let many = (0..3).map(|_| edit_cost(kind, 200_000, most)).fold(f64::MAX, f64::min);
        println!("{kind}: over 1000 {few:.0} ns, over 200000 {many:.0} ns, ratio {:.1}", many / few);
    }
    let few = (0..3).map(|_| linked_cost(990, (most / 100).max(20))).fold(f64::MAX, f64::min);
    let many = (0..3).map(|_| linked_cost(200_000, (most / 100).max(20))).fold(f64::MAX, f64::min);
    println!("linked: over 1000 {few:.0} ns, over 200000 {many:.0} ns, ratio {:.1}", many / few);
}
