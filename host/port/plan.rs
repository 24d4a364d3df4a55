//! What entering a point will do, found before anything is written: a call that is refused has then written nothing.

use crate::lookup::{root_for, Tree};
use crate::page::{row_start, tested};
use crate::words::{birth_of, high_key, low_key, page_of, upper_half, COPIED, KEYS, ROWS, TOP_LEVEL};

/// Levels of a tree: 0 to 3.
const LEVELS: usize = 4;

/// One page that the descent met.
#[derive(Clone, Copy, Default)]
pub struct Step {
    pub page: u32,
    pub level: u64,
    /// The place of the live row with low key < k < high key
    pub inner: Option<usize>,
    /// The place of the first live row, in key order, with low key ≥ k
    pub gain: Option<usize>,
    rows: usize,
    live: usize,
    /// Rows that are appended where the inner row or the row that gains is replaced: none for a row born at t
    inner_appends: usize,
    gain_appends: usize,
    /// The new pages that take the page's rows: 0 where the page does not overflow, else 1 or 2
    pub parts: u32,
}

pub struct Plan {
    steps: [Step; LEVELS],
    count: usize,
    /// The pages that the entry makes
    pub made: u32,
    /// The root overflows
    pub new_root: bool,
}

impl Plan {
    /// The pages met, from the root down.
    pub fn steps(&self) -> &[Step] {
        &self.steps[..self.count]
    }
}

/// Step 1, and the pages that steps 2 to 8 will make. Nothing where a spoiled page is met.
pub fn plan(tree: Tree, t: u32, k: u32) -> Option<Plan> {
    let root = root_for(tree, t)?;
    let mut plan = Plan { steps: [Step::default(); LEVELS], count: 0, made: 0, new_root: false };
    let (mut number, mut level, mut low, mut high) = (root.page, root.level, 0, KEYS);
    loop {
        let step = meet(tree, number, level, low, high, t, k)?;
        plan.steps[plan.count] = step;
        plan.count += 1;
        let Some(inner) = step.inner else { break };
        if level == 0 {
            break;
        }
        let keys = page_of(tree.table, number)[row_start(inner)];
        (number, level, low, high) = (upper_half(keys), level - 1, low_key(keys), high_key(keys));
    }
    count_pages(&mut plan);
    let parts = plan.steps[0].parts;
    if parts == 2 {
        // "a level 3 root whose rows must go to two pages" is spoiled
        if root.level == TOP_LEVEL {
            return None;
        }
        plan.made += 1;
    }
    plan.new_root = parts > 0;
    Some(plan)
}

fn meet(tree: Tree, number: u32, level: u64, low: u32, high: u32, t: u32, k: u32) -> Option<Step> {
    if number >= tree.pages {
        return None;
    }
    let page = page_of(tree.table, number);
    let order = tested(page, level, low, high, t)?;
    let inner = order.rows().find(|row| (row.low < k) & (k < row.high)).map(|row| row.place);
    let gain = order.rows().find(|row| k <= row.low).map(|row| row.place);
    let appends = |place: Option<usize>| place.map_or(0, |place| usize::from(birth_of(page[row_start(place) + 1]) != t));
    Some(Step {
        page: number,
        level,
        inner,
        gain,
        rows: page[1] as usize,
        live: order.count(),
        inner_appends: appends(inner),
        gain_appends: appends(gain),
        parts: 0,
    })
}

/// From the lowest page up: how many rows each has after its steps, and so which overflow.
fn count_pages(plan: &mut Plan) {
    let mut parts_below = 0;
    for step in plan.steps[..plan.count].iter_mut().rev() {
        let (mut rows, mut live) = (step.rows, step.live);
        if step.level == 0 && step.inner.is_some() {
            rows += step.inner_appends + 1;
            live += 1;
        } else {
            rows += step.gain_appends;
            if parts_below > 0 {
                rows += step.inner_appends + parts_below as usize - 1;
                live += parts_below as usize - 1;
            }
        }
        step.parts = match (rows > ROWS, live > COPIED) {
            (false, _) => 0,
            (true, false) => 1,
            (true, true) => 2,
        };
        plan.made += step.parts;
        parts_below = step.parts;
    }
}
