//! A small seeded generator of numbers (splitmix64).

#[derive(Clone)]
pub struct Rng(u64);

impl Rng {
  pub fn new(seed: u64) -> Self {
    Self(seed)
  }

  /// A generator of its own for the `index`th input of a seed.
  pub fn at(seed: u64, index: u64) -> Self {
    let mut rng = Self(seed ^ index.wrapping_mul(0xd134_2543_de82_ef95));
    rng.next();
    Self(rng.next())
  }

  pub fn next(&mut self) -> u64 {
    self.0 = self.0.wrapping_add(0x9e37_79b9_7f4a_7c15);
    let mut z = self.0;
    z = (z ^ (z >> 30)).wrapping_mul(0xbf58_476d_1ce4_e5b9);
    z = (z ^ (z >> 27)).wrapping_mul(0x94d0_49bb_1331_11eb);
    z ^ (z >> 31)
  }

  /// Below `n`, which is above 0.
  pub fn below(&mut self, n: usize) -> usize {
    (self.next() % n as u64) as usize
  }

  /// From `low` to `high`, both included.
  pub fn between(&mut self, low: usize, high: usize) -> usize {
    low + self.below(high - low + 1)
  }

  /// True in `percent` of a hundred cases.
  pub fn chance(&mut self, percent: usize) -> bool {
    self.below(100) < percent
  }

  pub fn pick<'a, T>(&mut self, items: &'a [T]) -> &'a T {
    &items[self.below(items.len())]
  }

  pub fn shuffle<T>(&mut self, items: &mut [T]) {
    for i in (1..items.len()).rev() {
      items.swap(i, self.below(i + 1));
    }
  }
}
