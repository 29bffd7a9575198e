//! Models in BLIF (02, Ticket 4): what a written one computes, by a reading of BLIF
//! at large; there and back; and at which line a text leaves the subset.

use reference::blif::{word, Network};
use reference::inputs::models::{damaged_model, model};
use reference::inputs::{self, Random};
use reference::model::{parse, Model, Pattern};
use reference::{Fast, ModelHead, Operations, Plain, Row, FD, FR, MODEL_ROOM, NO_OUTPUT};
use std::collections::HashSet;
use std::slice::from_ref;

/// Models with what they are of: n, k, the type, w and the rows.
type Written = ([usize; 4], Vec<Row>, Vec<u8>);

/// The model of a drawn list of at most so many inputs, if the row method answers.
fn written(seed: u64, inputs: usize) -> Option<Written> {
    let random = &mut Random::new(seed);
    let n = random.between(1, inputs);
    let k = random.between(1, 15);
    let w = random.between(1, n.min(4));
    let y = random.pick(&[FR, FD]);
    let count = random.between(1, 128);
    let rows = match random.below(2) {
        0 => inputs::rows(random, n, k, count),
        _ => inputs::hidden_rows(random, n, k, count),
    };
    let mut bytes = vec![0; MODEL_ROOM];
    let answer = Plain::write_model_records(n, k, y, w, &rows, &mut bytes);
    if answer.number != 0 {
        assert_eq!(answer.number, 9, "seed {seed}");
        return None;
    }
    bytes.truncate(answer.results);
    Some(([n, k, y, w], rows, bytes))
}

fn network(text: &[u8]) -> Network {
    Network::read(std::str::from_utf8(text).unwrap()).unwrap()
}

/// What reading a model gives, in room for any.
fn read<O: Operations>(text: &[u8]) -> (ModelHead, [Vec<u32>; 3], Vec<usize>) {
    let mut matrix = vec![0; 16];
    let mut counts = vec![0; 15];
    let [mut masks, mut values] = [vec![0; text.len()], vec![0; text.len()]];
    let got = O::read_model(text, &mut matrix, &mut counts, &mut masks, &mut values);
    assert_eq!((got.number, got.a, got.b), (0, 0, 0));
    let head = got.results;
    matrix.truncate(head.n);
    counts.truncate(head.k);
    masks.truncate(head.patterns);
    values.truncate(head.patterns);
    (head, [matrix, masks, values], counts)
}

/// Evaluating the written model at x gives the block's word at x, for fd blocks and
/// for fr blocks with an output at x; elsewhere no pattern has sigma x. The model that
/// is read back has the same words.
#[test]
fn a_written_model_is_the_block() {
    let [mut models, mut open] = [0, 0];
    for seed in 0..400 {
        let ([n, k, y, _], rows, text) = match written(seed, 9) {
            Some(written) => written,
            None => continue,
        };
        let mut table = vec![0; 1 << n];
        assert_eq!(Plain::fill_records(n, k, y, &rows, &mut table).number, 0);
        let network = network(&text);
        let (_, [matrix, masks, values], counts) = read::<Plain>(&text);
        for (x, &entry) in table.iter().enumerate() {
            let due = if entry == NO_OUTPUT { 0 } else { entry };
            open += usize::from(entry == NO_OUTPUT);
            assert_eq!(word(&network, x as u32), Ok(due.into()), "seed {seed}");
            let value = Fast::model_value(n, k, x, &matrix, &counts, &masks, &values);
            assert_eq!((value.number, value.results), (0, due.into()));
        }
        models += 1;
    }
    assert!(models > 350 && open > 400, "{models} {open}");
}

/// The same at some points of lists of up to 16 inputs.
#[test]
fn a_written_model_is_the_block_at_drawn_points() {
    for seed in 1_000..1_200 {
        let ([n, _, y, _], rows, text) = match written(seed, 16) {
            Some(written) => written,
            None => continue,
        };
        let network = network(&text);
        let random = &mut Random::new(seed);
        for _ in 0..32 {
            let row = random.pick(&rows);
            let inside = row.values | random.word(n) & !row.mask;
            let x = random.pick(&[inside, random.clone().word(n)]);
            let covering = rows.iter().find(|row| row.covers(x));
            if covering.is_some() || y == FD {
                let due = covering.map_or(0, |row| row.word);
                assert_eq!(word(&network, x), Ok(due), "seed {seed}");
            }
        }
    }
}

/// Reading back gives sigma and, for each output, the smaller rows that have a 1
/// there, in their order; written again they give the same bytes.
#[test]
fn a_model_goes_there_and_back() {
    for seed in 0..300 {
        let ([n, k, y, w], rows, text) = match written(seed, 16) {
            Some(written) => written,
            None => continue,
        };
        let mut smaller = vec![Row::default(); 512];
        let [mut columns, mut sigma] = [vec![0; n], vec![0; n]];
        let [t, s] = [&mut columns, &mut sigma];
        let found = Plain::row_method_records(n, k, y, w, &rows, &mut smaller, t, s);
        let smaller = &smaller[..found.results.rows];
        let driving = |j| smaller.iter().filter(move |row| row.word >> j & 1 == 1);
        let due: Vec<&Row> = (0..k).flat_map(driving).collect();

        let (head, [matrix, masks, values], counts) = read::<Plain>(&text);
        let [read_n, read_k, patterns] = [head.n, head.k, head.patterns];
        assert_eq!([read_n, read_k, patterns], [n, k, due.len()]);
        assert_eq!(matrix, sigma);
        let due_counts: Vec<usize> = (0..k).map(|j| driving(j).count()).collect();
        assert_eq!(counts, due_counts);
        assert!(due.iter().map(|row| row.mask).eq(masks.iter().copied()));
        assert!(due.iter().map(|row| row.values).eq(values.iter().copied()));
        assert_eq!(read::<Fast>(&text), read::<Plain>(&text));
        // Every column is driven (02, Ticket 8).
        assert!(!counts.contains(&0));

        let mut rest = masks.iter().zip(&values);
        let mut patterns = |count: &usize| {
            let own = rest.by_ref().take(*count);
            own.map(|(&mask, &values)| Pattern { mask, values })
                .collect()
        };
        let again = Model {
            matrix,
            outputs: counts.iter().map(&mut patterns).collect(),
        };
        assert_eq!(again.text().as_bytes(), text);
    }
}

/// A model that no list need give has the words that its text says in BLIF at large; it
/// may have an output without a pattern, which no list gives.
#[test]
fn any_model_has_the_words_of_its_text() {
    let [mut words, mut dependent, mut without_patterns] = [0; 3];
    for seed in 0..600 {
        let random = &mut Random::new(seed);
        let model = model(random);
        let text = model.text();
        assert_eq!(parse(text.as_bytes()), Ok(model.clone()));
        let network = network(text.as_bytes());
        let [n, k] = [model.matrix.len(), model.outputs.len()];
        let counts: Vec<usize> = model.outputs.iter().map(Vec::len).collect();
        without_patterns += usize::from(counts.contains(&0));
        let patterns = model.outputs.concat();
        let masks: Vec<u32> = patterns.iter().map(|pattern| pattern.mask).collect();
        let values: Vec<u32> = patterns.iter().map(|pattern| pattern.values).collect();
        for _ in 0..8 {
            let x = random.below(1 << n);
            let value = Plain::model_value(n, k, x, &model.matrix, &counts, &masks, &values);
            let fast = Fast::model_value(n, k, x, &model.matrix, &counts, &masks, &values);
            assert_eq!(value, fast);
            if value.number == 0 {
                let due = word(&network, x as u32).map(u64::from);
                assert_eq!(Ok(value.results), due, "seed {seed}");
                words += usize::from(value.results > 0);
            } else {
                assert_eq!(value.number, 8);
                dependent += 1;
            }
        }
    }
    assert!(words > 500 && dependent > 100, "{words} {dependent}");
    assert!(without_patterns > 20, "{without_patterns}");
}

/// A damaged text is refused at the same line by both, or is a model whose text is
/// that text: nothing is read that the writer could not print.
#[test]
fn damaged_models() {
    let [mut refused, mut read] = [0, 0];
    let mut lines = HashSet::new();
    for seed in 0..20_000 {
        let text = damaged_model(&mut Random::new(seed));
        let room = || (vec![7; 16], vec![7; 15], vec![7; text.len()]);
        let [(mut m, mut c, mut p), (mut fm, mut fc, mut fp)] = [room(), room()];
        let [mut v, mut fv] = [p.clone(), p.clone()];
        let plain = Plain::read_model(&text, &mut m, &mut c, &mut p, &mut v);
        let fast = Fast::read_model(&text, &mut fm, &mut fc, &mut fp, &mut fv);
        assert_eq!(plain, fast, "seed {seed}");
        assert!((m, c, p, v) == (fm, fc, fp, fv), "seed {seed}");
        match parse(&text) {
            Ok(model) => {
                assert_eq!(model.text().as_bytes(), text, "seed {seed}");
                read += 1;
            }
            Err(refusal) => {
                assert_eq!((refusal.number, refusal.b), (10, 0));
                lines.insert(refusal.a);
                refused += 1;
            }
        }
    }
    assert!(refused > 15_000 && read > 1_000, "{refused} {read}");
    assert!(lines.len() > 80, "{}", lines.len());
}

/// Every nonzero row below 2^n, in each of n places.
fn matrices(n: usize) -> Vec<Vec<u32>> {
    let mut all = vec![Vec::new()];
    for _ in 0..n {
        let with = |matrix: &Vec<u32>| {
            let matrix = matrix.clone();
            let row = move |row| [&matrix[..], &[row]].concat();
            (1..1 << n).map(row).collect::<Vec<_>>()
        };
        all = all.iter().flat_map(with).collect();
    }
    all
}

/// Every list of at most so many patterns over n of the z.
fn pattern_lists(n: usize, most: usize) -> Vec<Vec<Pattern>> {
    let whole = 0..1u32 << n;
    let each = whole.clone().flat_map(|mask| {
        let values = (0..1 << n).filter(move |values| values & !mask == 0);
        values.map(move |values| Pattern { mask, values })
    });
    let each: Vec<Pattern> = each.collect();
    let mut all = vec![Vec::new()];
    let mut longest = all.clone();
    for _ in 0..most {
        let with = |list: &Vec<Pattern>| {
            let list = list.clone();
            let longer = move |&pattern: &Pattern| [&list[..], &[pattern]].concat();
            each.iter().map(longer).collect::<Vec<_>>()
        };
        longest = longest.iter().flat_map(with).collect();
        all.extend(longest.iter().cloned());
    }
    all
}

/// The texts of all models of n inputs and k outputs with at most so many patterns
/// each.
fn small_models(n: usize, k: usize, most: usize) -> Vec<String> {
    let lists = pattern_lists(n, most);
    let mut outputs = vec![Vec::new()];
    for _ in 0..k {
        let with = |outputs: &Vec<Vec<Pattern>>| {
            let outputs = outputs.clone();
            let more = move |list: &Vec<Pattern>| [&outputs[..], from_ref(list)].concat();
            lists.iter().map(more).collect::<Vec<_>>()
        };
        outputs = outputs.iter().flat_map(with).collect();
    }
    let text = |matrix: &Vec<u32>| {
        let matrix = matrix.clone();
        let of = move |outputs: &Vec<Vec<Pattern>>| Model {
            matrix: matrix.clone(),
            outputs: outputs.clone(),
        };
        let texts = outputs.iter().map(|outputs| of(outputs).text());
        texts.collect::<Vec<_>>()
    };
    matrices(n).iter().flat_map(text).collect()
}

/// The line of 10 by its meaning: the first at which the text is no longer the
/// beginning of a model that can be written. All small models of a size are listed
/// for it, and the lines are theirs.
#[test]
fn the_line_is_the_first_that_no_model_has() {
    let [mut refused, mut read, mut not_listed] = [0, 0, 0];
    for (n, k, most) in [(1, 1, 2), (1, 2, 2), (2, 1, 2), (2, 2, 1), (3, 1, 1)] {
        let small = Small::new(n, k, most);
        for seed in 0..12_000 {
            let text = small.mixed(&mut Random::new(seed));
            let got = line_of::<Plain>(text.as_bytes());
            assert_eq!(got, line_of::<Fast>(text.as_bytes()), "{text}");
            match small.line_due(&text) {
                None => not_listed += 1,
                Some(due) => {
                    assert_eq!(got, due, "{text}");
                    refused += usize::from(due > 0);
                    read += usize::from(due == 0);
                }
            }
        }
    }
    assert!(refused > 40_000 && read > 2_000, "{refused} {read}");
    assert!(not_listed < 6_000, "{not_listed}");
}

/// The line at which a text leaves the subset, or 0.
fn line_of<O: Operations>(text: &[u8]) -> usize {
    let [mut masks, mut values] = [vec![0; text.len()], vec![0; text.len()]];
    let got = O::read_model(text, &mut [0; 16], &mut [0; 15], &mut masks, &mut values);
    match got.number {
        10 => got.a as usize,
        _ => 0,
    }
}

/// All models of n inputs and k outputs with at most so many patterns each.
struct Small {
    n: usize,
    models: Vec<String>,
    /// Their beginnings, whole lines each.
    fronts: HashSet<String>,
    lines: Vec<String>,
}

impl Small {
    fn new(n: usize, k: usize, most: usize) -> Small {
        let models = small_models(n, k, most);
        let front = |text: &String| {
            let text = text.clone();
            let ends: Vec<usize> = text.match_indices('\n').map(|(at, _)| at + 1).collect();
            ends.into_iter().map(move |end| text[..end].to_string())
        };
        let lines: HashSet<&str> = models.iter().flat_map(|text| text.lines()).collect();
        let mut lines: Vec<String> = lines.into_iter().map(str::to_string).collect();
        lines.sort_unstable();
        Small {
            n,
            fronts: models.iter().flat_map(front).collect(),
            lines,
            models,
        }
    }

    /// A model with lines dropped, doubled, exchanged or from another.
    fn mixed(&self, random: &mut Random) -> String {
        let model = &self.models[random.below(self.models.len())];
        let mut lines: Vec<&str> = model.split('\n').collect();
        for _ in 0..random.pick(&[1, 1, 2]) {
            let [at, other] = [random.below(lines.len()), random.below(lines.len())];
            let any = &self.lines[random.below(self.lines.len())];
            match random.below(5) {
                0 => drop(lines.remove(at)),
                1 => lines.insert(at, lines[at]),
                2 => lines.swap(at, other),
                3 => lines[at] = any,
                _ => lines.insert(at, any),
            }
        }
        lines.join("\n")
    }

    /// The line that is due for a text, 0 for a model; none where it has more
    /// patterns than those that are listed.
    fn line_due(&self, text: &str) -> Option<usize> {
        let lines: Vec<&str> = text.split('\n').collect();
        let mut front = String::new();
        for (index, line) in lines[..lines.len() - 1].iter().enumerate() {
            let in_output = lines[..index].iter().any(|line| is_output(line));
            let ended = front.ends_with(".end\n");
            front += &format!("{line}\n");
            if !self.fronts.contains(&front) {
                let symbols = line.strip_suffix(" 1").unwrap_or("");
                let is_pattern = in_output && !ended && symbols.len() == self.n;
                return (!is_pattern).then_some(index + 1);
            }
        }
        let whole = front.ends_with(".end\n") && lines[lines.len() - 1].is_empty();
        Some(if whole { 0 } else { lines.len() })
    }
}

/// Whether a line begins the cover of an output.
fn is_output(line: &str) -> bool {
    line.starts_with(".names z0") && line.contains(" y")
}

/// No model asks for more than the room for any: not even one with every pattern at
/// every output and chains of all inputs.
#[test]
fn room_for_any_model() {
    let longest = Model {
        matrix: vec![65_535; 16],
        outputs: vec![vec![Pattern::default(); 512]; 15],
    };
    assert!(longest.text().len() <= MODEL_ROOM);
}
