//! The arrays of an opened table, full of other things before it is opened.

use fadurinko::lent;
use fadurinko::limit::{FRAMES, NUMBERS};
use fadurinko_second::refusal::Refusal;
use fadurinko_second::rng::Rng;
use fadurinko_second::table::Table;

use crate::answer::{told, Told};
use crate::asked::Asked;
use crate::scratch::Scratch;

#[derive(Clone, PartialEq)]
pub struct Arrays {
    pub frames: Box<[u8; FRAMES]>,
    pub numbers: Box<[u64; NUMBERS]>,
}

impl Arrays {
    pub fn copy_from(&mut self, other: &Arrays) {
        *self.frames = *other.frames;
        *self.numbers = *other.numbers;
    }

    pub fn open(&mut self, text: &[u8]) -> Told {
        told(|answer| lent::open(text, &mut self.frames, &mut self.numbers, answer))
    }

    pub fn judge(&self) -> Told {
        told(|answer| lent::judge_opened(&self.frames, &self.numbers, answer))
    }

    pub fn find(&self, tree: &[u8], scratch: &mut Scratch, room: &mut [u8]) -> Told {
        let (frames, numbers, plan) = (&self.frames, &self.numbers, scratch.plan());
        told(|answer| lent::find(frames, numbers, tree, plan, room, answer))
    }
}

pub struct Opened {
    arrays: Arrays,
    before: Arrays,
    dirt: Arrays,
    scratch: Scratch,
    rng: Rng,
}

fn boxed<T: Clone + Default, const N: usize>(mut next: impl FnMut() -> T) -> Box<[T; N]> {
    let list: Vec<T> = (0..N).map(|_| next()).collect();
    match list.try_into() {
        Ok(array) => array,
        Err(_) => unreachable!("the list has N entries"),
    }
}

impl Opened {
    pub fn new(seed: u64) -> Opened {
        let mut rng = Rng::new(seed ^ 0x6469_7274);
        let dirt = Arrays {
            frames: boxed(|| rng.byte()),
            numbers: boxed(|| rng.below(usize::MAX) as u64),
        };
        Opened {
            arrays: dirt.clone(),
            before: dirt.clone(),
            scratch: Scratch::new(&mut rng),
            dirt,
            rng,
        }
    }

    /// Opens a text, which the second program read so, into arrays that were filled with other things:
    /// the answer, and whether the arrays are as is due. A refused text leaves them alone.
    pub fn open(
        &mut self,
        text: &[u8],
        read: &Result<Table, Refusal>,
    ) -> (Told, Result<(), &'static str>) {
        self.before.copy_from(&self.dirt);
        if let Ok(table) = read {
            self.before.lay_out(text, table);
        }
        self.arrays.copy_from(&self.dirt);
        let told = self.arrays.open(text);
        let as_is_due = match read {
            _ if self.arrays == self.before => Ok(()),
            Ok(_) => Err("the opened table is another"),
            Err(_) => Err("a refused text changed the arrays"),
        };
        self.before.copy_from(&self.arrays);
        (told, as_is_due)
    }

    pub fn judge(&self) -> Told {
        self.arrays.judge()
    }

    pub fn find(&mut self, tree: &[u8], room: &mut [u8]) -> Told {
        self.arrays.find(tree, &mut self.scratch, room)
    }

    /// Asks about a record or a tree, with noise in the scratch.
    pub fn ask(&mut self, asked: Asked, input: &[u8], room: &mut [u8]) -> Told {
        if matches!(asked, Asked::Word) {
            self.scratch.make_noise(&mut self.rng);
        }
        asked.by_arrays(&self.arrays, input, &mut self.scratch, room)
    }

    /// Whether the calls left the opened table alone, and what is around the scratch.
    pub fn is_as_opened(&self) -> Result<(), &'static str> {
        if self.arrays == self.before {
            self.scratch.holds_outside()
        } else {
            Err("a call changed the opened table")
        }
    }
}
