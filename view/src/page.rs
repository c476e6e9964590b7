//! The page: the recipe as nested blocks, the pairs as a heat map and as a list.
//!
//! Pairs, rounds and verdict are those of the proved program's listing, the blocks those of the
//! sheet's lines. The page works nothing out.

mod blocks;
mod pairs;
mod reading;
#[cfg(test)]
mod tests;

use reading::{Listing, Recipe};

const STYLE: &str = include_str!("page/style.css");
const SCRIPT: &str = include_str!("page/script.js");

/// The page of the recipe with this name, sheet and listing; else what is wrong with the two texts.
pub fn write(name: &str, sheet: &[u8], listing: &[u8]) -> Result<String, String> {
    let listing = Listing::read(listing)?;
    let recipe = Recipe::read(sheet)?;
    let labels = recipe.labels();
    listing.check_labels(&labels)?;
    Ok(page(&escaped(name), &recipe, &labels, &listing))
}

fn page(name: &str, recipe: &Recipe, labels: &[usize], listing: &Listing) -> String {
    let head = head(name, labels);
    let header = header(name, recipe, labels, listing);
    let heat_map = pairs::heat_map(labels, listing);
    let list = pairs::list(listing);
    let procedures = blocks::procedures(recipe);
    let hint = if listing.pairs.is_empty() {
        "No pair is listed."
    } else {
        "Choose a marked cell or a line of the list to see its steps."
    };
    format!(
        r##"<!doctype html>
<html lang="en">
{head}<body>
{header}<main>
<div class="pairs">
<section aria-labelledby="map-title">
<h2 id="map-title">Labels that may run at the same time</h2>
{heat_map}</section>
<section aria-labelledby="list-title">
<h2 id="list-title">Pairs</h2>
{list}</section>
</div>
<section class="recipe" aria-labelledby="recipe-title">
<h2 id="recipe-title">Recipe</h2>
<div class="shown"><p id="shown" role="status">{hint}</p> <button type="button" id="clear" hidden>Clear (Esc)</button></div>
<div class="scroll">
{procedures}</div>
</section>
</main>
{footer}<script>
{SCRIPT}</script>
</body>
</html>
"##,
        footer = footer(),
    )
}

/// The policy forbids the page to fetch anything.
fn head(name: &str, labels: &[usize]) -> String {
    format!(
        r##"<head>
<meta charset="utf-8">
<meta http-equiv="Content-Security-Policy" content="default-src 'none'; style-src 'unsafe-inline'; script-src 'unsafe-inline'; img-src data:; base-uri 'none'; form-action 'none'">
<meta name="viewport" content="width=device-width, initial-scale=1">
<link rel="icon" href="data:,">
<title>{name}: steps that may run at the same time</title>
<style>
{STYLE}{}</style>
</head>
"##,
        pairs::target_rules(labels)
    )
}

fn header(name: &str, recipe: &Recipe, labels: &[usize], listing: &Listing) -> String {
    let (verdict, meaning) = if listing.wide {
        (
            "wide",
            "the list may hold pairs that no run shows; it never lacks one.",
        )
    } else {
        (
            "exact",
            "every pair listed is shown by some run, and none is missing.",
        )
    };
    format!(
        r##"<header>
<p class="product">Bushkalote</p>
<h1><bdi>{name}</bdi></h1>
<p class="answer">{}</p>
<dl>
<div class="verdict"><dt>Verdict</dt><dd><b>{verdict}</b>: {meaning}</dd></div>
<div><dt>Rounds</dt><dd>{}</dd></div>
<div><dt>Rows</dt><dd>{}</dd></div>
<div><dt>Procedures</dt><dd>{}</dd></div>
<div><dt>Labels used</dt><dd>{}</dd></div>
</dl>
</header>
"##,
        answer(listing.pairs.len()),
        listing.rounds,
        recipe.rows.len(),
        recipe.roots.len(),
        labels.len(),
    )
}

fn answer(pairs: usize) -> String {
    match pairs {
        0 => "No two steps may run at the same time.".to_string(),
        1 => "1 pair of labels may run at the same time.".to_string(),
        _ => format!("{pairs} pairs of labels may run at the same time."),
    }
}

fn footer() -> &'static str {
    r##"<footer>
<h2>How to read this page</h2>
<dl>
<div><dt>Pair</dt><dd>Some step with the one label and some step with the other may run at the same time. A label may stand in several steps.</dd></div>
<div><dt>Side branch</dt><dd>Its block is started, and the recipe goes on at once.</dd></div>
<div><dt>Wait</dt><dd>The recipe goes on when its block and all that it has started have ended.</dd></div>
<div><dt>Loop</dt><dd>Its block runs any number of times, also none.</dd></div>
<div><dt>Call</dt><dd>The procedure's block runs here.</dd></div>
<div><dt>Rounds</dt><dd>How often all procedures were worked through until nothing changed.</dd></div>
</dl>
<p>This page shows what the proved program listed for this recipe. It works nothing out itself.</p>
</footer>
"##
}

/// A text from outside as HTML. Control characters, and those that would turn the text round, are
/// spelled out.
fn escaped(text: &str) -> String {
    let mut html = String::new();
    for c in text.chars() {
        match c {
            '&' => html.push_str("&amp;"),
            '<' => html.push_str("&lt;"),
            '>' => html.push_str("&gt;"),
            '"' => html.push_str("&quot;"),
            '\'' => html.push_str("&#39;"),
            _ if c.is_control() || turns_text(c) => html.extend(c.escape_default()),
            _ => html.push(c),
        }
    }
    html
}

/// Whether a character changes the direction of the text around it.
fn turns_text(c: char) -> bool {
    matches!(c, '\u{200e}' | '\u{200f}' | '\u{202a}'..='\u{202e}' | '\u{2066}'..='\u{2069}' | '\u{61c}')
}
