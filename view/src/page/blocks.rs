//! The recipe as blocks: for each procedure a grid, one line for each step, skip, call, loop,
//! side branch and wait.
//!
//! Browsers give up on elements that are nested some hundreds deep, and a recipe may be nested
//! 1,024 deep. So the elements are not nested: a loop, a side branch or a wait is one element that
//! spans its own line and those of its body, and what it holds stands further to the right.

use super::reading::{Recipe, Row};
use std::fmt::Write;

/// A row as it is shown: how deep it stands, and how many lines it spans.
struct Block {
    row: usize,
    depth: usize,
    lines: usize,
}

/// What is still to be done on the way through a procedure.
enum Visit {
    Enter { row: usize, depth: usize },
    Leave { block: usize },
}

/// All procedures, main first.
pub fn procedures(recipe: &Recipe) -> String {
    let mut html = String::new();
    for (procedure, &root) in recipe.roots.iter().enumerate() {
        push_procedure(&mut html, recipe, procedure, root);
    }
    html
}

fn push_procedure(html: &mut String, recipe: &Recipe, procedure: usize, root: usize) {
    let blocks = blocks_of(recipe, root);
    let deepest = blocks.iter().map(|block| block.depth).max().unwrap_or(0);
    let number = if procedure == 0 {
        " <small>procedure 0</small>"
    } else {
        ""
    };
    html.push_str(&format!(
        "<details class=\"procedure\" id=\"procedure-{procedure}\" open>\n\
         <summary><h3>{}{number}</h3></summary>\n\
         <ol class=\"blocks\" style=\"--deepest:{}\">\n",
        name(procedure),
        deepest.max(1),
    ));
    for (line, block) in blocks.iter().enumerate() {
        push_block(html, recipe, line, block);
    }
    html.push_str("</ol>\n</details>\n");
}

/// What a procedure is called on the page.
fn name(procedure: usize) -> String {
    match procedure {
        0 => "main".to_string(),
        _ => format!("procedure {procedure}"),
    }
}

/// The blocks below a root, from top to bottom. A sequence is no block: its two parts are.
fn blocks_of(recipe: &Recipe, root: usize) -> Vec<Block> {
    let mut blocks: Vec<Block> = Vec::new();
    let mut visits = vec![Visit::Enter {
        row: root,
        depth: 0,
    }];
    while let Some(visit) = visits.pop() {
        let (row, depth) = match visit {
            Visit::Enter { row, depth } => (row, depth),
            Visit::Leave { block } => {
                blocks[block].lines = blocks.len() - block;
                continue;
            }
        };
        if let Row::Seq(first, second) = recipe.rows[row] {
            visits.push(Visit::Enter { row: second, depth });
            visits.push(Visit::Enter { row: first, depth });
            continue;
        }
        if let Row::Loop(child) | Row::Async(child) | Row::Finish(child) = recipe.rows[row] {
            let block = blocks.len();
            visits.push(Visit::Leave { block });
            visits.push(Visit::Enter {
                row: child,
                depth: depth + 1,
            });
        }
        blocks.push(Block {
            row,
            depth,
            lines: 1,
        });
    }
    blocks
}

fn push_block(html: &mut String, recipe: &Recipe, line: usize, block: &Block) {
    let (class, content) = match recipe.rows[block.row] {
        Row::Skip => ("skip".to_string(), "skip".to_string()),
        Row::Step(label) => (format!("step l{label}"), format!("step <b>{label}</b>")),
        Row::Loop(_) => ("loop".to_string(), "loop".to_string()),
        Row::Async(_) => ("branch".to_string(), "side branch".to_string()),
        Row::Finish(_) => ("wait".to_string(), "wait".to_string()),
        Row::Call(procedure) => (
            "call".to_string(),
            format!(
                "call <a href=\"#procedure-{procedure}\">{}</a>",
                name(procedure)
            ),
        ),
        Row::Seq(..) => unreachable!("a sequence is no block"),
    };
    let row = block.row;
    writeln!(
        html,
        "<li class=\"{class}\" id=\"row-{row}\" aria-level=\"{}\" style=\"grid-area:{}/{}/span {}/-1\">\
         <span>{content}</span> <small>row {row}</small></li>",
        block.depth + 1,
        line + 1,
        block.depth + 1,
        block.lines,
    )
    .expect("a string takes all that is written to it");
}
