//! What the calls on opened tables are lent to work in, between guards: the plan of a word, and the tree
//! bytes of a record.

use fadurinko::limit::{PLAN, TREE};
use fadurinko_second::rng::Rng;

const GUARD: usize = 64;
const PLAN_GUARD: u32 = 0x5ca1_ab1e;
const TREE_GUARD: u8 = 0x5c;
/// Noise begins at any of so many places, and is changed by a mask, so that it is another each time.
const STARTS: usize = 256;

#[repr(C)]
struct Guarded<T, const N: usize> {
    before: [T; GUARD],
    lent: [T; N],
    behind: [T; GUARD],
}

impl<T: Copy + PartialEq, const N: usize> Guarded<T, N> {
    fn new(guard: T) -> Box<Guarded<T, N>> {
        Box::new(Guarded {
            before: [guard; GUARD],
            lent: [guard; N],
            behind: [guard; GUARD],
        })
    }

    fn is_kept(&self, guard: T) -> bool {
        self.before == [guard; GUARD] && self.behind == [guard; GUARD]
    }
}

pub struct Scratch {
    plan: Box<Guarded<u32, PLAN>>,
    tree: Box<Guarded<u8, TREE>>,
    plan_noise: Vec<u32>,
    tree_noise: Vec<u8>,
}

impl Scratch {
    /// Full of noise.
    pub fn new(rng: &mut Rng) -> Scratch {
        let mut scratch = Scratch {
            plan: Guarded::new(PLAN_GUARD),
            tree: Guarded::new(TREE_GUARD),
            plan_noise: (0..PLAN + STARTS)
                .map(|_| rng.below(1 << 32) as u32)
                .collect(),
            tree_noise: (0..TREE + STARTS).map(|_| rng.byte()).collect(),
        };
        scratch.make_noise(rng);
        scratch
    }

    /// Fills it with other noise.
    pub fn make_noise(&mut self, rng: &mut Rng) {
        let mask = rng.below(1 << 32) as u32;
        let plan_noise = &self.plan_noise[rng.below(STARTS)..];
        for (number, noise) in self.plan.lent.iter_mut().zip(plan_noise) {
            *number = noise ^ mask;
        }
        let tree_noise = &self.tree_noise[rng.below(STARTS)..];
        for (byte, noise) in self.tree.lent.iter_mut().zip(tree_noise) {
            *byte = noise ^ mask as u8;
        }
    }

    pub fn plan(&mut self) -> &mut [u32; PLAN] {
        &mut self.plan.lent
    }

    pub fn tree_and_plan(&mut self) -> (&mut [u8; TREE], &mut [u32; PLAN]) {
        (&mut self.tree.lent, &mut self.plan.lent)
    }

    /// Whether nothing around the scratch was written to.
    pub fn holds_outside(&self) -> Result<(), &'static str> {
        if !self.plan.is_kept(PLAN_GUARD) {
            Err("numbers around the plan changed")
        } else if !self.tree.is_kept(TREE_GUARD) {
            Err("bytes around the tree changed")
        } else {
            Ok(())
        }
    }
}

#[cfg(test)]
mod tests {
    use super::*;

    #[test]
    fn what_is_written_outside_is_seen() {
        let mut scratch = Scratch::new(&mut Rng::new(1));
        let (tree, plan) = scratch.tree_and_plan();
        (tree[0], tree[TREE - 1], plan[0], plan[PLAN - 1]) = (1, 2, 3, 4);
        assert_eq!(scratch.holds_outside(), Ok(()));
        for at in [0, GUARD - 1] {
            scratch.tree.before[at] ^= 1;
            assert!(scratch.holds_outside().is_err());
            scratch.tree.before[at] ^= 1;
            scratch.plan.behind[at] ^= 1;
            assert!(scratch.holds_outside().is_err());
            scratch.plan.behind[at] ^= 1;
        }
    }

    #[test]
    fn noise_changes() {
        let mut rng = Rng::new(2);
        let mut scratch = Scratch::new(&mut rng);
        let (tree, plan) = scratch.tree_and_plan();
        let (tree, plan) = (*tree, *plan);
        scratch.make_noise(&mut rng);
        assert!(scratch.tree.lent != tree && scratch.plan.lent != plan);
    }
}
