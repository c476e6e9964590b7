//! Reading: a sheet as rows and roots, a listing as pairs, rounds and verdict.
//!
//! The proved program has judged the sheet and made the listing. What is checked here is only
//! that both texts have the form that the page is built on.

use std::collections::BTreeSet;

const ROW_CEILING: usize = 1024;
const PROCEDURE_CEILING: usize = 64;
const LABEL_CEILING: usize = 64;

/// A row of the sheet. Children are row numbers, below the row's own.
#[derive(Clone, Copy)]
pub enum Row {
    Skip,
    Step(usize),
    Seq(usize, usize),
    Loop(usize),
    Async(usize),
    Finish(usize),
    Call(usize),
}

impl Row {
    /// The row of a kind's word and its operands, where a row with this number can be such.
    fn new(word: &str, x: usize, y: usize, number: usize) -> Option<Row> {
        match (word, x, y) {
            ("skip", 0, 0) => Some(Row::Skip),
            ("step", label, 0) if label < LABEL_CEILING => Some(Row::Step(label)),
            ("seq", first, second) if first < number && second < number => {
                Some(Row::Seq(first, second))
            }
            ("loop", child, 0) if child < number => Some(Row::Loop(child)),
            ("async", child, 0) if child < number => Some(Row::Async(child)),
            ("finish", child, 0) if child < number => Some(Row::Finish(child)),
            ("call", procedure, 0) => Some(Row::Call(procedure)),
            _ => None,
        }
    }

    fn children(self) -> Vec<usize> {
        match self {
            Row::Seq(first, second) => vec![first, second],
            Row::Loop(child) | Row::Async(child) | Row::Finish(child) => vec![child],
            Row::Skip | Row::Step(_) | Row::Call(_) => Vec::new(),
        }
    }
}

/// A recipe in which every row is used once: its rows and the root of each procedure, main first.
pub struct Recipe {
    pub rows: Vec<Row>,
    pub roots: Vec<usize>,
}

impl Recipe {
    pub fn read(sheet: &[u8]) -> Result<Recipe, String> {
        let mut recipe = Recipe {
            rows: Vec::new(),
            roots: Vec::new(),
        };
        for (at, line) in lines(sheet, "sheet")?.into_iter().enumerate() {
            recipe
                .add(line)
                .ok_or_else(|| format!("line {} of the sheet is not a line of a recipe", at + 1))?;
        }
        recipe.check_procedures()?;
        recipe.check_uses()?;
        Ok(recipe)
    }

    /// The labels that stand in a step, ascending.
    pub fn labels(&self) -> Vec<usize> {
        let labels: BTreeSet<usize> = self
            .rows
            .iter()
            .filter_map(|row| match row {
                Row::Step(label) => Some(*label),
                _ => None,
            })
            .collect();
        labels.into_iter().collect()
    }

    fn add(&mut self, line: &str) -> Option<()> {
        let fields: Vec<&str> = line.split('\t').collect();
        match fields[..] {
            ["R", word, x, y] if self.roots.is_empty() && self.rows.len() < ROW_CEILING => {
                let row = Row::new(word, number(x)?, number(y)?, self.rows.len())?;
                self.rows.push(row);
            }
            ["P", root] if self.roots.len() < PROCEDURE_CEILING => {
                self.roots.push(number(root)?);
            }
            _ => return None,
        }
        Some(())
    }

    fn check_procedures(&self) -> Result<(), String> {
        if self.roots.is_empty() {
            return Err("the sheet has no procedure".to_string());
        }
        for (procedure, &root) in self.roots.iter().enumerate() {
            if root >= self.rows.len() {
                return Err(format!(
                    "procedure {procedure} of the sheet has no row as its root"
                ));
            }
        }
        for (at, row) in self.rows.iter().enumerate() {
            if matches!(row, Row::Call(procedure) if *procedure >= self.roots.len()) {
                return Err(format!(
                    "row {at} of the sheet calls a procedure that is not there"
                ));
            }
        }
        Ok(())
    }

    /// Each row is used once, as a child or as a root: so the blocks form trees.
    fn check_uses(&self) -> Result<(), String> {
        let mut uses = vec![0; self.rows.len()];
        let children = self.rows.iter().flat_map(|row| row.children());
        for used in children.chain(self.roots.iter().copied()) {
            uses[used] += 1;
        }
        match uses.iter().position(|&count| count != 1) {
            None => Ok(()),
            Some(at) => Err(format!(
                "row {at} of the sheet is used {} times, not once",
                uses[at]
            )),
        }
    }
}

/// A listing: pairs of labels, ascending, the lower label first.
pub struct Listing {
    pub pairs: Vec<(usize, usize)>,
    pub rounds: usize,
    pub wide: bool,
}

impl Listing {
    pub fn read(listing: &[u8]) -> Result<Listing, String> {
        let lines = lines(listing, "listing")?;
        let Some((opening, pair_lines)) = lines.split_first() else {
            return Err("the listing is empty".to_string());
        };
        if let ["refused", number, place] = opening.split('\t').collect::<Vec<_>>()[..] {
            return Err(format!(
                "the recipe was refused ({number}, place {place}): there are no pairs to show"
            ));
        }
        let (count, rounds, wide) =
            read_opening(opening).ok_or("the listing's first line is not an opening line")?;
        let pairs = read_pairs(pair_lines)?;
        if pairs.len() != count {
            return Err(format!(
                "the listing announces {count} pairs and has {}",
                pairs.len()
            ));
        }
        Ok(Listing {
            pairs,
            rounds,
            wide,
        })
    }

    /// Whether the listing has this pair, in whichever order.
    pub fn has(&self, a: usize, b: usize) -> bool {
        self.pairs.binary_search(&(a.min(b), a.max(b))).is_ok()
    }

    /// Every label listed is one of these, which ascend.
    pub fn check_labels(&self, labels: &[usize]) -> Result<(), String> {
        for &(low, high) in &self.pairs {
            for label in [low, high] {
                if labels.binary_search(&label).is_err() {
                    return Err(format!(
                        "the listing has label {label}, which no step of the sheet has"
                    ));
                }
            }
        }
        Ok(())
    }
}

/// The count of pairs, the rounds, and whether the verdict is wide.
fn read_opening(line: &str) -> Option<(usize, usize, bool)> {
    let fields: Vec<&str> = line.split('\t').collect();
    let ["pairs", count, "rounds", rounds, verdict] = fields[..] else {
        return None;
    };
    let wide = match verdict {
        "exact" => false,
        "wide" => true,
        _ => return None,
    };
    Some((number(count)?, number(rounds)?, wide))
}

fn read_pairs(lines: &[&str]) -> Result<Vec<(usize, usize)>, String> {
    let mut pairs = Vec::with_capacity(lines.len());
    for (at, line) in lines.iter().enumerate() {
        let pair = read_pair(line)
            .filter(|pair| pairs.last().map_or(true, |before| before < pair))
            .ok_or_else(|| format!("line {} of the listing is not the next pair", at + 2))?;
        pairs.push(pair);
    }
    Ok(pairs)
}

fn read_pair(line: &str) -> Option<(usize, usize)> {
    let (low, high) = line.split_once('\t')?;
    let pair = (number(low)?, number(high)?);
    (pair.0 <= pair.1).then_some(pair)
}

/// The lines of a text in which every line is ended.
fn lines<'a>(text: &'a [u8], what: &str) -> Result<Vec<&'a str>, String> {
    if text.is_empty() {
        return Ok(Vec::new());
    }
    let text = std::str::from_utf8(text).map_err(|_| format!("the {what} is not plain text"))?;
    let ended = text
        .strip_suffix('\n')
        .ok_or_else(|| format!("the {what}'s last line is not ended"))?;
    Ok(ended.split('\n').collect())
}

/// A number as sheets and listings write it: one to four digits, no leading zero.
fn number(field: &str) -> Option<usize> {
    let plain = field.len() <= 4
        && field.bytes().all(|byte| byte.is_ascii_digit())
        && (field == "0" || !field.starts_with('0'));
    if plain {
        field.parse().ok()
    } else {
        None
    }
}
