//! What a page must have, held against the sheet's and the listing's lines.

use super::html::{elements, Element};
use std::collections::{BTreeMap, BTreeSet};

type Pair = (usize, usize);

/// Panics where the page is not that of the sheet and the listing, both of right form.
pub fn check(name: &str, sheet: &[u8], listing: &[u8], page: &str) {
    let sheet = fields(sheet);
    let listing = fields(listing);
    let elements = elements(page);
    check_links(page, &elements);
    check_blocks(&sheet, &elements);
    let pairs: Vec<Pair> = listing[1..]
        .iter()
        .map(|line| (number(&line[0]), number(&line[1])))
        .collect();
    check_map(&labels(&sheet), &pairs, &elements);
    check_list(&pairs, &elements);
    check_words(name, &listing[0], &elements);
}

fn fields(text: &[u8]) -> Vec<Vec<String>> {
    let text = std::str::from_utf8(text).expect("plain text");
    text.lines()
        .map(|line| line.split('\t').map(str::to_string).collect())
        .collect()
}

fn number(field: &str) -> usize {
    field.parse().unwrap_or_else(|_| panic!("{field:?}"))
}

fn rows(sheet: &[Vec<String>]) -> impl Iterator<Item = &Vec<String>> {
    sheet.iter().filter(|line| line[0] == "R")
}

fn labels(sheet: &[Vec<String>]) -> Vec<usize> {
    let labels: BTreeSet<usize> = rows(sheet)
        .filter(|line| line[1] == "step")
        .map(|line| number(&line[2]))
        .collect();
    labels.into_iter().collect()
}

/// Ids are unique, links stay in the page, and nothing comes from outside.
fn check_links(page: &str, elements: &[Element]) {
    let ids: Vec<&str> = elements
        .iter()
        .map(|element| element.attribute("id"))
        .filter(|id| !id.is_empty())
        .collect();
    let unique: BTreeSet<&str> = ids.iter().copied().collect();
    assert_eq!(ids.len(), unique.len(), "ids are unique");
    for element in elements {
        if let Some(target) = element.attribute("href").strip_prefix('#') {
            assert!(unique.contains(target), "{target} is there");
        } else if element.attributes.contains_key("href") {
            assert_eq!(element.attribute("href"), "data:,");
        }
        for named in element.attribute("aria-labelledby").split_whitespace() {
            assert!(unique.contains(named), "{named} is there");
        }
    }
    for outside in ["http://", "https://", "src=", "url(", "@import"] {
        assert!(!page.contains(outside), "{outside} in the page");
    }
}

/// Where a row stands on the page: its procedure, its lines there, how deep, and its element.
struct Place<'a> {
    procedure: &'a str,
    first: usize,
    last: usize,
    depth: usize,
    element: Option<&'a Element>,
}

/// The place that an element gives itself in its procedure's grid.
fn place<'a>(elements: &'a [Element], element: &'a Element) -> Place<'a> {
    let list = &elements[element.parent.expect("a list")];
    let procedure = elements[list.parent.expect("a procedure")].attribute("id");
    let area = element
        .attribute("style")
        .strip_prefix("grid-area:")
        .expect("a place");
    let parts: Vec<&str> = area.split('/').collect();
    let [line, column, span, "-1"] = parts[..] else {
        panic!("{area}");
    };
    let first = number(line);
    let span = number(span.strip_prefix("span ").expect("a span"));
    assert_eq!(element.attribute("aria-level"), column);
    Place {
        procedure,
        first,
        last: first + span - 1,
        depth: number(column) - 1,
        element: Some(element),
    }
}

/// Every row but a sequence has one block with its words, children stand inside and in order.
fn check_blocks(sheet: &[Vec<String>], elements: &[Element]) {
    let mut blocks: BTreeMap<usize, Place> = BTreeMap::new();
    for element in elements {
        if let Some(row) = element.attribute("id").strip_prefix("row-") {
            blocks.insert(number(row), place(elements, element));
        }
    }
    let mut places: Vec<Place> = Vec::new();
    for (row, line) in rows(sheet).enumerate() {
        let (kind, x, y) = (line[1].as_str(), number(&line[2]), number(&line[3]));
        let own = blocks.remove(&row);
        if kind == "seq" {
            assert!(own.is_none(), "row {row}: a sequence is no block");
            places.push(joined(&places[x], &places[y]));
            continue;
        }
        let own = own.unwrap_or_else(|| panic!("row {row} has its block"));
        check_text(row, kind, x, own.element.expect("a block's element"));
        if ["loop", "async", "finish"].contains(&kind) {
            let child = &places[x];
            assert_eq!(own.procedure, child.procedure, "row {row}");
            assert_eq!((own.first + 1, own.last), (child.first, child.last));
            assert_eq!(own.depth + 1, child.depth, "row {row}");
        } else {
            assert_eq!(own.first, own.last, "row {row} is one line");
        }
        places.push(own);
    }
    assert!(blocks.is_empty(), "no block without a row");
    check_procedures(sheet, &places, elements);
}

/// The place of a sequence: its parts one under the other.
fn joined<'a>(first: &Place<'a>, second: &Place<'a>) -> Place<'a> {
    assert_eq!(first.procedure, second.procedure);
    assert_eq!(first.last + 1, second.first, "one under the other");
    assert_eq!(first.depth, second.depth);
    Place {
        last: second.last,
        element: None,
        ..*first
    }
}

fn check_text(row: usize, kind: &str, x: usize, element: &Element) {
    let (class, words) = match kind {
        "step" => (format!("step l{x}"), format!("step {x}")),
        "async" => ("branch".to_string(), "side branch".to_string()),
        "finish" => ("wait".to_string(), "wait".to_string()),
        "call" => ("call".to_string(), format!("call {}", called(x))),
        _ => (kind.to_string(), kind.to_string()),
    };
    assert_eq!(element.attribute("class"), class);
    assert_eq!(element.text, format!("{words} row {row}"));
}

fn called(procedure: usize) -> String {
    match procedure {
        0 => "main".to_string(),
        _ => format!("procedure {procedure}"),
    }
}

/// The procedures stand in order, each with its root's blocks from its first line on, and calls
/// lead to the procedures that they name.
fn check_procedures(sheet: &[Vec<String>], places: &[Place], elements: &[Element]) {
    let roots: Vec<usize> = sheet
        .iter()
        .filter(|line| line[0] == "P")
        .map(|line| number(&line[1]))
        .collect();
    let shown: Vec<&Element> = elements
        .iter()
        .filter(|element| element.has_class("procedure"))
        .collect();
    assert_eq!(shown.len(), roots.len(), "one block a procedure");
    for (procedure, (&root, element)) in roots.iter().zip(shown).enumerate() {
        assert_eq!(element.attribute("id"), format!("procedure-{procedure}"));
        assert!(element.text.trim_start().starts_with(&called(procedure)));
        assert_eq!(places[root].procedure, element.attribute("id"));
        assert_eq!((places[root].first, places[root].depth), (1, 0));
    }
    let mut calls: Vec<(String, String)> = Vec::new();
    for element in elements {
        if element.attribute("href").starts_with("#procedure-") {
            calls.push((element.attribute("href").to_string(), element.text.clone()));
        }
    }
    let mut expected: Vec<(String, String)> = rows(sheet)
        .filter(|line| line[1] == "call")
        .map(|line| (format!("#procedure-{}", line[2]), called(number(&line[2]))))
        .collect();
    calls.sort();
    expected.sort();
    assert_eq!(calls, expected);
}

/// One cell for each two labels, marked exactly where the listing has the pair.
fn check_map(labels: &[usize], pairs: &[Pair], elements: &[Element]) {
    let maps = elements.iter().filter(|element| element.has_class("map"));
    assert_eq!(maps.count(), usize::from(!labels.is_empty()), "one map");
    let heads = |scope: &str| -> Vec<usize> {
        elements
            .iter()
            .filter(|element| element.attribute("scope") == scope)
            .map(|element| number(&element.text))
            .collect()
    };
    assert_eq!(heads("col"), labels);
    assert_eq!(heads("row"), labels);
    // The first cell is the empty corner between the heads.
    let cells: Vec<usize> = (0..elements.len())
        .filter(|&at| elements[at].tag == "td")
        .skip(1)
        .collect();
    assert_eq!(cells.len(), labels.len() * labels.len(), "cells");
    let mut cell = cells.iter();
    for &row in labels {
        for &column in labels {
            let at = *cell.next().expect("counted before");
            let pair = (row.min(column), row.max(column));
            let marked = pairs.contains(&pair);
            assert_eq!(elements[at].has_class("hot"), marked, "{pair:?}");
            assert_eq!(elements[at].has_class("self"), row == column, "{pair:?}");
            let link = elements.get(at + 1).filter(|next| next.parent == Some(at));
            assert_eq!(link.is_some(), marked, "{pair:?}");
            if let Some(link) = link {
                let target = format!("#pair-{}-{}", pair.0, pair.1);
                assert_eq!(link.attribute("href"), target);
                assert!(link.attribute("title").contains("at the same time"));
            }
        }
    }
}

/// One line a pair, in the listing's order.
fn check_list(pairs: &[Pair], elements: &[Element]) {
    let lines: Vec<&Element> = elements
        .iter()
        .filter(|element| element.attribute("id").starts_with("pair-"))
        .collect();
    assert_eq!(lines.len(), pairs.len(), "one line a pair");
    for (line, &(low, high)) in lines.into_iter().zip(pairs) {
        assert_eq!(line.attribute("id"), format!("pair-{low}-{high}"));
        assert!(line.has_class(&format!("p{low}")) && line.has_class(&format!("p{high}")));
        let words = if low == high {
            format!("{low} and itself")
        } else {
            format!("{low} and {high}")
        };
        assert_eq!(line.text, words);
    }
}

/// The name, and the opening line's count, rounds and verdict.
fn check_words(name: &str, opening: &[String], elements: &[Element]) {
    let one = |tag: &str| -> &Element {
        let mut found = elements.iter().filter(|element| element.tag == tag);
        let element = found.next().unwrap_or_else(|| panic!("a {tag}"));
        assert!(found.next().is_none(), "one {tag}");
        element
    };
    assert_eq!(one("html").attribute("lang"), "en");
    assert!(one("title").text.starts_with(name));
    assert_eq!(one("h1").text, name);
    let header = &one("header").text;
    let count = match opening[1].as_str() {
        "0" => "No two steps may run".to_string(),
        "1" => "1 pair of labels may run".to_string(),
        count => format!("{count} pairs of labels may run"),
    };
    let rounds = format!("Rounds{}\n", opening[3]);
    let verdict = match opening[4].as_str() {
        "wide" => "wide: the list may hold pairs that no run shows; it never lacks one.",
        _ => "exact: every pair listed is shown by some run, and none is missing.",
    };
    for part in [count.as_str(), &rounds, verdict] {
        assert!(header.contains(part), "{part:?} in {header:?}");
    }
    let footer = &one("footer").text;
    assert!(footer.contains("shows what the proved program listed"));
}
