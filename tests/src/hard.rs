//! The rows of data/hard-shapes.txt.

/// A shape list and its masks, none where it is refused on ground 10.
pub struct Row {
    pub number: usize,
    pub shape: Vec<u32>,
    pub masks: Option<Vec<u32>>,
}

/// All rows, numbered from 1; the file's first line says what they are.
pub fn rows() -> Vec<Row> {
    let lines = include_str!("../data/hard-shapes.txt").lines();
    let rows = lines.filter(|line| !line.starts_with('#'));
    let numbered = rows.enumerate();
    numbered.map(|(i, line)| read_row(i + 1, line)).collect()
}

fn read_row(number: usize, line: &str) -> Row {
    let (shape, answer) = line.split_once(" -> ").expect("a shape and an answer");
    let word = |text: &str| u32::from_str_radix(text, 16).expect("a word");
    let mask = |text: &str| text.trim().parse::<u32>().expect("a mask");
    let masks = match answer {
        "refused 10" => None,
        list => {
            let inner = list.trim_start_matches('[').trim_end_matches(']');
            Some(inner.split(',').map(mask).collect())
        }
    };
    Row {
        number,
        shape: shape.split_whitespace().map(word).collect(),
        masks,
    }
}
