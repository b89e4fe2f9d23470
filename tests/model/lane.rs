//! The code down one lane. A lane is bit i of every row of a block: `lane[p]` is row p, and `lane[0]` is never used.

pub type Lane = Vec<bool>;

/// The two kinds of lost: even parity, and an odd sum beyond the rows.
#[derive(Clone, Copy, PartialEq, Debug)]
pub enum Kind {
    Even,
    Beyond,
}

/// What can be said of a lane: it is valid, one flip of a row makes it valid, or neither.
#[derive(Clone, Copy, PartialEq, Debug)]
pub enum Finding {
    Valid,
    Flipped(usize),
    Lost(Kind),
}

/// The number of the last row.
pub fn last(lane: &Lane) -> usize {
    lane.len() - 1
}

/// The exclusive or of the row numbers of all rows except the last that hold a one.
pub fn sum(lane: &Lane) -> usize {
    let mut sum = 0;
    for row in 1..last(lane) {
        if lane[row] {
            sum ^= row;
        }
    }
    sum
}

/// Whether the count of ones over all rows is odd.
pub fn odd(lane: &Lane) -> bool {
    let mut count = 0;
    for row in 1..=last(lane) {
        if lane[row] {
            count += 1;
        }
    }
    count % 2 == 1
}

/// A lane is valid if its sum is 0 and its parity even.
pub fn valid(lane: &Lane) -> bool {
    sum(lane) == 0 && !odd(lane)
}

/// Found by search: every lane that is at most one flip away is tried.
pub fn search(lane: &Lane) -> Finding {
    if valid(lane) {
        return Finding::Valid;
    }
    let mut tried = lane.clone();
    for row in 1..=last(lane) {
        tried[row] = !tried[row];
        if valid(&tried) {
            return Finding::Flipped(row);
        }
        tried[row] = !tried[row];
    }
    Finding::Lost(if odd(lane) { Kind::Beyond } else { Kind::Even })
}

/// Every valid lane that agrees with this one outside the named rows, whatever stands in them, but for at most one flip outside
/// where at most one row is named. All are tried, and each is told once.
pub fn ways(lane: &Lane, named: &[usize]) -> Vec<Lane> {
    let mut found: Vec<Lane> = Vec::new();
    let mut keep = |tried: &Lane| {
        if valid(tried) && !found.contains(tried) {
            found.push(tried.clone());
        }
    };
    for choice in 0..1usize << named.len() {
        let mut tried = lane.clone();
        named.iter().enumerate().for_each(|(k, row)| tried[*row] = (choice >> k) % 2 == 1);
        keep(&tried);
        for row in (1..=last(lane)).filter(|row| named.len() <= 1 && !named.contains(row)) {
            tried[row] = !tried[row];
            keep(&tried);
            tried[row] = !tried[row];
        }
    }
    found
}

/// The one way, where there is one.
pub fn around(lane: &Lane, named: &[usize]) -> Option<Lane> {
    let mut found = ways(lane, named);
    assert!(found.len() <= 1, "a lane can be made valid in {} ways around rows {named:?}: {lane:?}", found.len());
    found.pop()
}

/// The specification's five lines, word for word; the self-test holds the search to them.
pub fn decide(lane: &Lane) -> Finding {
    let rows = last(lane);
    match (odd(lane), sum(lane)) {
        (false, 0) => Finding::Valid,
        (true, 0) => Finding::Flipped(rows),
        (true, sum) if sum <= rows - 1 => Finding::Flipped(sum),
        (false, _) => Finding::Lost(Kind::Even),
        (true, _) => Finding::Lost(Kind::Beyond),
    }
}
