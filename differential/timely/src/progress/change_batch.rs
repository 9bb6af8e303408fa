//! Sums by item, of which only those other than 0 count.

/// Additions by item. They are appended as they come, and summed up when they are looked at or
/// have doubled since they last were: so an addition costs little, and memory stays in
/// proportion to the items.
#[derive(Clone, Debug)]
pub struct ChangeBatch<T> {
    entries: Vec<(T, i64)>,
    /// So many of the first entries are sorted, no item twice and none with 0.
    summed: usize,
}

/// Below this many entries it is not worth summing up early.
const FEW: usize = 32;

impl<T> ChangeBatch<T> {
    pub fn new() -> Self {
        ChangeBatch { entries: Vec::new(), summed: 0 }
    }
    pub fn clear(&mut self) {
        self.entries.clear();
        self.summed = 0;
    }
    /// The additions as they lie here, perhaps several to an item.
    pub fn unstable_internal_updates(&self) -> &Vec<(T, i64)> {
        &self.entries
    }
}

impl<T: Ord> ChangeBatch<T> {
    pub fn update(&mut self, item: T, amount: i64) {
        self.entries.push((item, amount));
        self.tend();
    }
    pub fn extend<I: Iterator<Item = (T, i64)>>(&mut self, additions: I) {
        self.entries.extend(additions);
        self.tend();
    }
    /// The sums other than 0, by item in order.
    pub fn iter(&mut self) -> std::slice::Iter<'_, (T, i64)> {
        self.sum_up();
        self.entries.iter()
    }
    /// Takes the sums other than 0 out.
    pub fn drain(&mut self) -> std::vec::Drain<'_, (T, i64)> {
        self.sum_up();
        self.summed = 0;
        self.entries.drain(..)
    }
    pub fn is_empty(&mut self) -> bool {
        self.sum_up();
        self.entries.is_empty()
    }
    fn tend(&mut self) {
        if self.entries.len() > FEW && self.entries.len() / 2 >= self.summed {
            self.sum_up();
        }
    }
    fn sum_up(&mut self) {
        if self.summed < self.entries.len() {
            self.entries.sort_by(|a, b| a.0.cmp(&b.0));
            self.entries.dedup_by(|next, kept| {
                let same = next.0 == kept.0;
                if same {
                    kept.1 += next.1;
                }
                same
            });
            self.entries.retain(|entry| entry.1 != 0);
            self.summed = self.entries.len();
        }
    }
}

impl<T> Default for ChangeBatch<T> {
    fn default() -> Self {
        Self::new()
    }
}
