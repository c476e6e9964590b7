//! The pairs: the heat map of the labels used, and the list.

use super::reading::Listing;

const LEGEND: &str = r#"<ul class="legend">
<li><i class="hot"></i> may run at the same time</li>
<li><i class="hot self"></i> may run at the same time as itself</li>
<li><i></i> never at the same time</li>
</ul>
"#;

/// The heat map, a table with a row and a column for each label. Both halves are shown.
pub fn heat_map(labels: &[usize], listing: &Listing) -> String {
    if labels.is_empty() {
        return "<p>No step stands in this recipe, so there is no label to show.</p>\n".to_string();
    }
    let class = if labels.len() > 16 { "map many" } else { "map" };
    let mut html = format!(
        "<div class=\"scroll\">\n<table class=\"{class}\" style=\"--labels:{}\">\n\
         <caption>Rows and columns are labels</caption>\n<thead>\n<tr><td></td>",
        labels.len()
    );
    for label in labels {
        html.push_str(&format!("<th scope=\"col\">{label}</th>"));
    }
    html.push_str("</tr>\n</thead>\n<tbody>\n");
    for &row in labels {
        html.push_str(&format!("<tr><th scope=\"row\">{row}</th>"));
        for &column in labels {
            html.push_str(&cell(row, column, listing.has(row, column)));
        }
        html.push_str("</tr>\n");
    }
    html.push_str("</tbody>\n</table>\n</div>\n");
    html.push_str(LEGEND);
    html
}

fn cell(row: usize, column: usize, marked: bool) -> String {
    let diagonal = row == column;
    let (low, high) = (row.min(column), row.max(column));
    match (marked, diagonal) {
        (false, false) => "<td></td>".to_string(),
        (false, true) => "<td class=\"self\"></td>".to_string(),
        (true, false) => format!(
            "<td class=\"hot\"><a href=\"#pair-{low}-{high}\" \
             title=\"{row} and {column} may run at the same time\"></a></td>"
        ),
        (true, true) => format!(
            "<td class=\"hot self\"><a href=\"#pair-{low}-{high}\" \
             title=\"{row} may run at the same time as itself\"></a></td>"
        ),
    }
}

/// The list, one line a pair. A line is its own target, so that a link to it shows its pair.
pub fn list(listing: &Listing) -> String {
    if listing.pairs.is_empty() {
        return "<p>The list is empty.</p>\n".to_string();
    }
    let mut html = "<ol class=\"list\">\n".to_string();
    for &(low, high) in &listing.pairs {
        let (classes, words) = if low == high {
            (format!("p{low}"), format!("{low} and itself"))
        } else {
            (format!("p{low} p{high}"), format!("{low} and {high}"))
        };
        html.push_str(&format!(
            "<li class=\"{classes}\" id=\"pair-{low}-{high}\">\
             <a href=\"#pair-{low}-{high}\">{words}</a></li>\n"
        ));
    }
    html.push_str("</ol>\n");
    html
}

/// The rules that light the steps of the pair in the page's address where scripts are off.
pub fn target_rules(labels: &[usize]) -> String {
    let mut css = String::new();
    for label in labels {
        css.push_str(&format!(
            ":root:not(.scripted):has(.p{label}:target) .l{label}{{\
             --fill:var(--hot);--mark:var(--on-hot);--weight:700}}\n"
        ));
    }
    css
}
