//! Lines for the tables of the examples, no two alike: good clips, clips that are refused, and lines that are
//! no hexadecimal.

use std::collections::HashSet;

use fadurinko_second::rng::Rng;

use crate::longest::hexadecimal;

pub struct Lines {
    rng: Rng,
    any_line: fn(&mut Rng) -> String,
    given: HashSet<String>,
}

impl Lines {
    /// For `word` under `clips.table`.
    pub fn clips(rng: Rng) -> Lines {
        Lines::new(rng, clip)
    }

    /// For `record word` and `record tree` under `records.table`.
    pub fn records(rng: Rng) -> Lines {
        Lines::new(rng, record)
    }

    /// For `record back` under `records.table`.
    pub fn images(rng: Rng) -> Lines {
        Lines::new(rng, record_image)
    }

    fn new(rng: Rng, any_line: fn(&mut Rng) -> String) -> Lines {
        Lines {
            rng,
            any_line,
            given: HashSet::new(),
        }
    }

    /// So many lines, each closed by a line feed.
    pub fn take(&mut self, count: usize) -> Vec<Vec<u8>> {
        (0..count).map(|_| self.line()).collect()
    }

    fn line(&mut self) -> Vec<u8> {
        loop {
            let line = (self.any_line)(&mut self.rng);
            if self.given.insert(line.clone()) {
                return format!("{line}\n").into_bytes();
            }
        }
    }
}

/// The symbols of `clips.table`.
const CLIP: u8 = 0;
const PAIR: u8 = 1;
const FIRST_SCENE: u8 = 2;
const LAST_SCENE: u8 = 4;
const UNKNOWN: u8 = 5;

fn clip(rng: &mut Rng) -> String {
    let mut tree = vec![CLIP];
    for _ in 0..3 {
        scene(rng, 4, &mut tree);
    }
    let place = rng.below(tree.len());
    match rng.below(9) {
        0 => tree.truncate(place + 1),
        1 => tree.push(FIRST_SCENE),
        2 => tree[place] = UNKNOWN,
        3 => tree[place] = CLIP,
        // A clip as the last scene of a clip.
        4 => tree = [vec![CLIP, FIRST_SCENE, LAST_SCENE], tree].concat(),
        5 => return format!("{}g", hexadecimal(&tree)),
        _ => {}
    }
    hexadecimal(&tree)
}

fn scene(rng: &mut Rng, levels: usize, tree: &mut Vec<u8>) {
    if levels == 1 || rng.percent(45) {
        return tree.push(rng.byte_between(FIRST_SCENE, LAST_SCENE));
    }
    tree.push(PAIR);
    scene(rng, levels - 1, tree);
    scene(rng, levels - 1, tree);
}

/// The symbols of `records.table` besides the clip, and what closes in a stream.
const SCENE: u8 = 1;
const TAKE: u8 = 2;
const ABSENT: u8 = 3;
const CLOSE: u8 = 0xff;

/// The stream of a clip with scenes, each with takes.
fn clip_with_scenes(rng: &mut Rng) -> Vec<u8> {
    let mut stream = vec![CLIP];
    for _ in 0..rng.below(9) {
        stream.push(SCENE);
        for _ in 0..rng.below(7) {
            stream.extend([TAKE, CLOSE]);
        }
        stream.push(CLOSE);
    }
    stream.push(CLOSE);
    stream
}

fn record(rng: &mut Rng) -> String {
    let mut stream = clip_with_scenes(rng);
    let place = rng.below(stream.len());
    match rng.below(10) {
        0 => stream.truncate(place),
        1 => stream.push(CLIP),
        2 => stream.push(CLOSE),
        3 => stream[place] = ABSENT,
        4 => stream[place] = CLOSE,
        5 => stream[place] = TAKE,
        // More scenes than there are levels.
        6 => stream
            .splice(1..1, [SCENE, CLOSE].repeat(63))
            .for_each(drop),
        7 => return format!("{}g", hexadecimal(&stream)),
        _ => {}
    }
    hexadecimal(&stream)
}

/// The image of a record: the absent element for each close, and one more.
fn record_image(rng: &mut Rng) -> String {
    let stream = clip_with_scenes(rng);
    let symbol = |byte: u8| if byte == CLOSE { ABSENT } else { byte };
    let mut tree: Vec<u8> = stream.into_iter().map(symbol).chain([ABSENT]).collect();
    let place = rng.below(tree.len());
    match rng.below(10) {
        0 => tree.truncate(place),
        1 => tree.push(ABSENT),
        2 => tree[place] = CLOSE,
        3 => tree[place] = TAKE,
        // A scene beside the clip.
        4 => tree
            .splice(tree.len() - 1.., [SCENE, ABSENT, ABSENT])
            .for_each(drop),
        5 => tree.splice(1..1, [SCENE, ABSENT].repeat(63)).for_each(drop),
        6 => return format!("{}g", hexadecimal(&tree)),
        _ => {}
    }
    hexadecimal(&tree)
}

#[cfg(test)]
mod tests {
    use super::*;

    #[test]
    fn no_two_lines_are_alike() {
        for mut lines in [Lines::clips, Lines::records, Lines::images].map(|of| of(Rng::new(1))) {
            let taken = lines.take(20_000);
            let distinct: HashSet<&Vec<u8>> = taken.iter().collect();
            assert_eq!(distinct.len(), taken.len());
            assert!(taken.iter().all(|line| line.ends_with(b"\n")));
        }
    }
}
