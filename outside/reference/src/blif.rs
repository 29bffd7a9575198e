//! BLIF of covers at large, whatever its names: what a model computes. It knows
//! nothing of blocks, so that a model's text is judged by what it says in that
//! language. It takes one model of `.inputs`, `.outputs` and `.names`, whose covers
//! give the points where they are 1.

use std::collections::BTreeMap;

/// A cover: its output is 1 where one of its lines has the values of its inputs.
#[derive(Clone, Debug)]
struct Cover {
    inputs: Vec<String>,
    output: String,
    lines: Vec<String>,
}

/// A model of covers.
#[derive(Clone, Debug, Default)]
pub struct Network {
    pub inputs: Vec<String>,
    pub outputs: Vec<String>,
    covers: Vec<Cover>,
}

impl Network {
    /// The model of a text, or what is wrong with it.
    pub fn read(text: &str) -> Result<Network, String> {
        let mut network = Network::default();
        let mut ended = false;
        for line in text.lines() {
            let mut words = line.split_whitespace().map(str::to_string);
            let first = words.next().ok_or("an empty line")?;
            let mut words: Vec<String> = words.collect();
            if ended {
                return Err(format!("after .end: {line}"));
            }
            match first.as_str() {
                ".model" => (),
                ".inputs" => network.inputs = words,
                ".outputs" => network.outputs = words,
                ".names" => {
                    let output = words.pop().ok_or("a cover of nothing")?;
                    network.covers.push(Cover {
                        inputs: words,
                        output,
                        lines: Vec::new(),
                    });
                }
                ".end" => ended = true,
                _ => {
                    let cover = network.covers.last_mut().ok_or("a line of no cover")?;
                    let fits = first.len() == cover.inputs.len() && words == ["1"];
                    if !fits || !first.bytes().all(|symbol| b"01-".contains(&symbol)) {
                        return Err(format!("no line of its cover: {line}"));
                    }
                    cover.lines.push(first);
                }
            }
        }
        match ended {
            true => Ok(network),
            false => Err("no .end".to_string()),
        }
    }

    /// The value of each output, where the inputs have these. Each name is given a
    /// value once, and before it is used.
    pub fn evaluate(&self, inputs: &[bool]) -> Result<Vec<bool>, String> {
        if inputs.len() != self.inputs.len() {
            return Err("other inputs".to_string());
        }
        let mut known: BTreeMap<&str, bool> = BTreeMap::new();
        for (name, &value) in self.inputs.iter().zip(inputs) {
            known.insert(name, value);
        }
        for cover in &self.covers {
            let values: Option<Vec<bool>> = cover
                .inputs
                .iter()
                .map(|name| known.get(name.as_str()).copied())
                .collect();
            let values = values.ok_or(format!("used before it is known: {cover:?}"))?;
            let value = cover.lines.iter().any(|line| has(line, &values));
            if known.insert(&cover.output, value).is_some() {
                return Err(format!("known twice: {cover:?}"));
            }
        }
        let value = |name: &String| known.get(name.as_str()).copied();
        let values: Option<Vec<bool>> = self.outputs.iter().map(value).collect();
        values.ok_or("an output that is not known".to_string())
    }
}

/// Whether a cover's line has these values.
fn has(line: &str, values: &[bool]) -> bool {
    line.bytes()
        .zip(values)
        .all(|(symbol, &value)| symbol == b'-' || (symbol == b'1') == value)
}

/// The word of a model's text at x: bit i of x is its i-th input, bit j of the word
/// its j-th output.
pub fn word(network: &Network, x: u32) -> Result<u32, String> {
    let inputs: Vec<bool> = (0..network.inputs.len()).map(|i| x >> i & 1 == 1).collect();
    let outputs = network.evaluate(&inputs)?;
    let bits = outputs.iter().enumerate();
    Ok(bits.fold(0, |word, (j, &bit)| word | u32::from(bit) << j))
}
