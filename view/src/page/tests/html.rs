//! A strict reader of the page's HTML: every element that is opened is closed, in order.

use std::collections::BTreeMap;

/// An element with its attributes, the element around it, and all text inside it.
#[derive(Debug)]
pub struct Element {
    pub tag: String,
    pub attributes: BTreeMap<String, String>,
    pub parent: Option<usize>,
    pub text: String,
}

impl Element {
    pub fn attribute(&self, name: &str) -> &str {
        self.attributes.get(name).map_or("", String::as_str)
    }

    pub fn has_class(&self, class: &str) -> bool {
        self.attribute("class")
            .split(' ')
            .any(|found| found == class)
    }
}

/// The elements in the order in which they open.
pub fn elements(html: &str) -> Vec<Element> {
    let mut rest = html
        .strip_prefix("<!doctype html>\n")
        .expect("the page opens with its doctype");
    let mut elements: Vec<Element> = Vec::new();
    let mut open: Vec<usize> = Vec::new();
    while let Some(at) = rest.find('<') {
        add_text(&mut elements, &open, &rest[..at]);
        rest = &rest[at..];
        if let Some(closing) = rest.strip_prefix("</") {
            let (tag, after) = closing.split_once('>').expect("a closing tag ends");
            let closed = open.pop().expect("something is open");
            assert_eq!(tag, elements[closed].tag, "tags close in order");
            rest = after;
            continue;
        }
        let (element, after) = opening(rest, open.last().copied());
        rest = after;
        let tag = element.tag.clone();
        elements.push(element);
        if tag == "style" || tag == "script" {
            let (_, after) = rest
                .split_once(&format!("</{tag}>"))
                .expect("raw text ends");
            rest = after;
        } else if tag != "meta" && tag != "link" {
            open.push(elements.len() - 1);
        }
    }
    assert!(open.is_empty(), "every element is closed");
    assert_eq!(rest.trim(), "");
    elements
}

/// The element that opens here, and what comes behind its tag.
fn opening(html: &str, parent: Option<usize>) -> (Element, &str) {
    let end = html[1..]
        .find(|c: char| !c.is_ascii_alphanumeric())
        .expect("a tag ends")
        + 1;
    assert!(end > 1, "a tag has a name: {:.40}", html);
    let mut attributes = BTreeMap::new();
    let mut rest = &html[end..];
    while let Some(attribute) = rest.strip_prefix(' ') {
        let end = attribute.find(['=', ' ', '>']).expect("an attribute ends");
        let (name, after) = attribute.split_at(end);
        let (value, after) = match after.strip_prefix("=\"") {
            Some(value) => value.split_once('"').expect("a value ends"),
            None => ("", after),
        };
        let before = attributes.insert(name.to_string(), unescaped(value));
        assert!(before.is_none(), "an attribute stands once: {name}");
        rest = after;
    }
    let after = rest.strip_prefix('>').expect("a tag ends");
    let element = Element {
        tag: html[1..end].to_string(),
        attributes,
        parent,
        text: String::new(),
    };
    (element, after)
}

fn add_text(elements: &mut [Element], open: &[usize], text: &str) {
    let text = unescaped(text);
    assert!(
        !open.is_empty() || text.trim().is_empty(),
        "text stands inside"
    );
    for &at in open {
        elements[at].text.push_str(&text);
    }
}

fn unescaped(text: &str) -> String {
    let mut plain = String::new();
    let mut rest = text;
    while let Some(at) = rest.find('&') {
        plain.push_str(&rest[..at]);
        let (name, after) = rest[at + 1..].split_once(';').expect("an escape ends");
        plain.push(match name {
            "amp" => '&',
            "lt" => '<',
            "gt" => '>',
            "quot" => '"',
            "#39" => '\'',
            _ => panic!("an escape that the page does not use: {name}"),
        });
        rest = after;
    }
    assert!(!text.contains('<'), "a bare < in {text:?}");
    plain + rest
}
