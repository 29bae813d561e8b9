//! Records made to measure: their streams, and the images of these.

use fadurinko_second::rng::Rng;

/// The byte that closes an element.
pub const CLOSE: u8 = 0xff;

/// The stream of a record of so many elements with one label: of so many behind a list's first, `inside` gives
/// how many are inside that.
pub fn record(label: u8, elements: usize, mut inside: impl FnMut(usize) -> usize) -> Vec<u8> {
    let mut stream = vec![label];
    // Lists that are to come, the last first; an empty one is closed.
    let mut due = vec![elements - 1];
    while let Some(list) = due.pop() {
        if list == 0 {
            stream.push(CLOSE);
        } else {
            stream.push(label);
            let inside = inside(list - 1);
            due.extend([list - 1 - inside, inside]);
        }
    }
    stream
}

/// A root with so many childless elements inside.
pub fn siblings(label: u8, many: usize) -> Vec<u8> {
    record(label, 1 + many, |_| 0)
}

/// So many elements, each but the first alone inside another.
pub fn nested(label: u8, many: usize) -> Vec<u8> {
    record(label, many, |elements| elements)
}

/// So many elements, as many inside the first of a list as beside it: the image has few levels.
pub fn bushy(label: u8, many: usize) -> Vec<u8> {
    record(label, many, |elements| elements / 2)
}

/// So many elements with labels below a number, anyhow.
pub fn any(labels: u8, many: usize, rng: &mut Rng) -> Vec<u8> {
    let mut stream = record(0, many, |elements| rng.between(0, elements));
    for byte in stream.iter_mut().filter(|byte| **byte != CLOSE) {
        *byte = rng.below(labels.into()) as u8;
    }
    stream
}

/// The preorder of a record's image: the last symbol for each close, and one more.
pub fn image(stream: &[u8], last: u8) -> Vec<u8> {
    let symbol = |&byte: &u8| if byte == CLOSE { last } else { byte };
    stream.iter().map(symbol).chain([last]).collect()
}

/// The stream whose image tree bytes are, if they are one.
pub fn stream(image: &[u8], last: u8) -> Vec<u8> {
    let byte = |&symbol: &u8| if symbol == last { CLOSE } else { symbol };
    let front = &image[..image.len().saturating_sub(1)];
    front.iter().map(byte).collect()
}

#[cfg(test)]
mod tests {
    use super::*;
    use fadurinko_second::brute::records::all_records;
    use fadurinko_second::stream::read;

    #[test]
    fn records_are_made_to_measure() {
        assert_eq!(siblings(7, 2), [7, 7, CLOSE, 7, CLOSE, CLOSE]);
        assert_eq!(nested(7, 3), [7, 7, 7, CLOSE, CLOSE, CLOSE]);
        assert_eq!(bushy(7, 4), [7, 7, 7, CLOSE, CLOSE, 7, CLOSE, CLOSE]);
        assert_eq!(bushy(7, 1), [7, CLOSE]);
        let any = any(3, 500, &mut Rng::new(1));
        assert!(any.len() == 1_000 && read(3, &any).is_ok() && read(2, &any).is_err());
    }

    #[test]
    fn images_are_those_of_the_definition() {
        for small in (1..=5).flat_map(|elements| all_records(2, elements)) {
            let preorder = small.image(2).preorder();
            assert_eq!(image(&small.stream(), 2), preorder);
            assert_eq!(stream(&preorder, 2), small.stream());
        }
    }
}
