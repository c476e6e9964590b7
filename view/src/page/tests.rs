//! The page's structure: on all samples, at the ceilings, and for texts that are damaged.

mod html;
mod structure;

use super::write;
use std::fs;
use std::path::PathBuf;
use structure::check;

struct Sample {
    name: String,
    sheet: Vec<u8>,
    listing: Vec<u8>,
}

fn samples() -> Vec<Sample> {
    let folder = PathBuf::from(env!("CARGO_MANIFEST_DIR")).join("../recipes");
    let mut sheets: Vec<PathBuf> = fs::read_dir(&folder)
        .expect("the folder of samples")
        .map(|entry| entry.expect("a sample").path())
        .filter(|path| {
            path.extension()
                .is_some_and(|extension| extension == "sheet")
        })
        .collect();
    sheets.sort();
    assert!(sheets.len() >= 20, "the samples are there");
    let read = |path: PathBuf| {
        fs::read(&path).unwrap_or_else(|error| panic!("{}: {error}", path.display()))
    };
    sheets
        .into_iter()
        .map(|path| Sample {
            name: path.file_name().unwrap().to_string_lossy().into_owned(),
            listing: read(path.with_extension("listing")),
            sheet: read(path),
        })
        .collect()
}

fn is_refused(listing: &[u8]) -> bool {
    listing.starts_with(b"refused\t")
}

#[test]
fn every_sample_has_its_page_or_its_error() {
    for sample in samples() {
        let page = write(&sample.name, &sample.sheet, &sample.listing);
        match page {
            Ok(page) => {
                assert!(!is_refused(&sample.listing), "{}", sample.name);
                check(&sample.name, &sample.sheet, &sample.listing, &page);
            }
            Err(error) => {
                assert!(
                    is_refused(&sample.listing) && error.contains("was refused"),
                    "{}: {error}",
                    sample.name
                );
            }
        }
    }
}

const BURNT: (&str, &str) = (
    "R\tstep\t2\t0\nR\tstep\t0\t0\nR\tasync\t1\t0\nR\tstep\t1\t0\nR\tstep\t3\t0\n\
     R\tseq\t3\t4\nR\tseq\t2\t5\nR\tseq\t0\t6\nP\t7\n",
    "pairs\t2\trounds\t1\texact\n0\t1\n0\t3\n",
);

#[test]
fn a_name_is_escaped() {
    let name = "<script>alert('a & b')</script> \"x\"\n\u{202e}é.sheet";
    let page = write(name, BURNT.0.as_bytes(), BURNT.1.as_bytes()).expect("a page");
    let shown =
        "&lt;script&gt;alert(&#39;a &amp; b&#39;)&lt;/script&gt; &quot;x&quot;\\n\\u{202e}é.sheet";
    assert!(page.contains(&format!("<h1><bdi>{shown}</bdi></h1>")));
    assert!(page.contains(&format!("<title>{shown}: ")));
    assert!(!page.contains("alert('"));
    check(
        "<script>alert('a & b')</script> \"x\"\\n\\u{202e}é.sheet",
        BURNT.0.as_bytes(),
        BURNT.1.as_bytes(),
        &page,
    );
}

#[test]
fn a_wrong_sheet_gives_an_error_text() {
    let listing = b"pairs\t0\trounds\t1\texact\n";
    let cases = [
        ("", "no procedure"),
        ("R\tskip\t0\t0\n", "no procedure"),
        ("R\tskip\t0\t0\nP\t0", "last line is not ended"),
        ("R\tskip\t0\t0\nP\t0\n\n", "line 3 of the sheet"),
        ("R\tskip\t0\t0\r\nP\t0\n", "line 1 of the sheet"),
        ("R\tskip\t0\nP\t0\n", "line 1 of the sheet"),
        ("R\twait\t0\t0\nP\t0\n", "line 1 of the sheet"),
        ("R\tskip\t00\t0\nP\t0\n", "line 1 of the sheet"),
        ("R\tskip\t1\t0\nP\t0\n", "line 1 of the sheet"),
        ("R\tstep\t64\t0\nP\t0\n", "line 1 of the sheet"),
        ("R\tstep\t+1\t0\nP\t0\n", "line 1 of the sheet"),
        ("R\tstep\t10000\t0\nP\t0\n", "line 1 of the sheet"),
        ("R\tloop\t0\t0\nP\t0\n", "line 1 of the sheet"),
        ("R\tskip\t0\t0\nR\tseq\t0\t1\nP\t1\n", "line 2 of the sheet"),
        (
            "R\tskip\t0\t0\nP\t0\nR\tskip\t0\t0\n",
            "line 3 of the sheet",
        ),
        ("R\tskip\t0\t0\nP\t1\n", "procedure 0 of the sheet"),
        ("R\tcall\t1\t0\nP\t0\n", "row 0 of the sheet calls"),
        (
            "R\tskip\t0\t0\nR\tseq\t0\t0\nP\t1\n",
            "row 0 of the sheet is used 2",
        ),
        (
            "R\tskip\t0\t0\nP\t0\nP\t0\n",
            "row 0 of the sheet is used 2",
        ),
        (
            "R\tskip\t0\t0\nR\tskip\t0\t0\nP\t1\n",
            "row 0 of the sheet is used 0",
        ),
    ];
    for (sheet, part) in cases {
        let error = write("x", sheet.as_bytes(), listing).expect_err(sheet);
        assert!(error.contains(part), "{sheet:?}: {error}");
    }
    let error = write("x", b"R\tskip\t0\t0\xff\nP\t0\n", listing).expect_err("bytes");
    assert!(error.contains("not plain text"), "{error}");
}

#[test]
fn too_many_rows_or_procedures_give_an_error_text() {
    let rows = format!("{}P\t0\n", "R\tskip\t0\t0\n".repeat(1025));
    let roots = format!("R\tskip\t0\t0\n{}", "P\t0\n".repeat(65));
    for (sheet, part) in [(rows, "line 1025 "), (roots, "line 66 ")] {
        let error = write("x", sheet.as_bytes(), b"pairs\t0\trounds\t1\texact\n")
            .expect_err("more than the ceiling");
        assert!(error.contains(part), "{error}");
    }
}

#[test]
fn a_wrong_listing_gives_an_error_text() {
    let cases = [
        ("", "listing is empty"),
        ("refused\t4\t0\n", "was refused (4, place 0)"),
        ("pairs\t0\trounds\t1\texact", "last line is not ended"),
        ("pairs\t0\trounds\t1\tloose\n", "first line"),
        ("pairs\t0\trounds\texact\n", "first line"),
        ("pairs\t00\trounds\t1\texact\n", "first line"),
        (
            "pairs\t2\trounds\t1\texact\n0\t1\n",
            "announces 2 pairs and has 1",
        ),
        (
            "pairs\t1\trounds\t1\texact\n1\t0\n",
            "line 2 of the listing",
        ),
        (
            "pairs\t2\trounds\t1\texact\n0\t3\n0\t1\n",
            "line 3 of the listing",
        ),
        (
            "pairs\t2\trounds\t1\texact\n0\t1\n0\t1\n",
            "line 3 of the listing",
        ),
        (
            "pairs\t1\trounds\t1\texact\n0\t1\t2\n",
            "line 2 of the listing",
        ),
        ("pairs\t1\trounds\t1\texact\n0 1\n", "line 2 of the listing"),
        (
            "pairs\t1\trounds\t1\texact\n0\t4\n",
            "label 4, which no step",
        ),
    ];
    for (listing, part) in cases {
        let error = write("x", BURNT.0.as_bytes(), listing.as_bytes()).expect_err(listing);
        assert!(error.contains(part), "{listing:?}: {error}");
    }
}

/// 512 steps one after the other, with all labels, in a loop, and every pair listed.
fn full_recipe() -> (String, String) {
    let mut sheet = "R\tstep\t0\t0\n".to_string();
    for step in 1..512 {
        let row = 2 * step - 1;
        sheet.push_str(&format!("R\tstep\t{}\t0\n", step % 64));
        sheet.push_str(&format!("R\tseq\t{}\t{row}\n", row - 1));
    }
    sheet.push_str("R\tloop\t1022\t0\nP\t1023\n");
    let mut listing = "pairs\t2080\trounds\t1\twide\n".to_string();
    for low in 0..64 {
        for high in low..64 {
            listing.push_str(&format!("{low}\t{high}\n"));
        }
    }
    (sheet, listing)
}

#[test]
fn the_page_of_a_full_recipe_is_below_a_megabyte() {
    let (sheet, listing) = full_recipe();
    let page = write("full.sheet", sheet.as_bytes(), listing.as_bytes()).expect("a page");
    assert!(page.len() < 1_000_000, "{} bytes", page.len());
    check("full.sheet", sheet.as_bytes(), listing.as_bytes(), &page);
}

#[test]
fn a_chain_of_all_rows_has_its_page() {
    for kind in ["loop", "async", "finish"] {
        let mut sheet = "R\tstep\t63\t0\n".to_string();
        for child in 0..1023 {
            sheet.push_str(&format!("R\t{kind}\t{child}\t0\n"));
        }
        sheet.push_str("P\t1023\n");
        let listing = "pairs\t0\trounds\t1\texact\n";
        let page = write("chain.sheet", sheet.as_bytes(), listing.as_bytes()).expect("a page");
        check("chain.sheet", sheet.as_bytes(), listing.as_bytes(), &page);
    }
}

/// Numbers from a seed.
struct Dice(u64);

impl Dice {
    fn below(&mut self, n: usize) -> usize {
        self.0 ^= self.0 << 13;
        self.0 ^= self.0 >> 7;
        self.0 ^= self.0 << 17;
        (self.0 % n as u64) as usize
    }

    /// The text with one to three damages: a byte changed, left out or put in, a line doubled.
    fn damaged(&mut self, text: &[u8]) -> Vec<u8> {
        let mut text = text.to_vec();
        for _ in 0..1 + self.below(3) {
            let at = self.below(text.len().max(1));
            match self.below(4) {
                0 if at < text.len() => text[at] = self.byte(),
                1 if at < text.len() => {
                    text.remove(at);
                }
                2 => {
                    let line = text.split(|&byte| byte == b'\n').nth(self.below(6));
                    let mut line = line.unwrap_or_default().to_vec();
                    line.push(b'\n');
                    text.splice(at..at, line);
                }
                _ => text.insert(at, self.byte()),
            }
        }
        text
    }

    fn byte(&mut self) -> u8 {
        const LIKELY: &[u8] = b"0123456789\t\nRP <&\xff";
        LIKELY[self.below(LIKELY.len())]
    }
}

#[test]
fn a_damaged_text_never_breaks_the_writer() {
    let mut dice = Dice(0x9e37_79b9_7f4a_7c15);
    let mut errors = 0;
    let small = |sample: &Sample| sample.sheet.len() < 400 && !is_refused(&sample.listing);
    for sample in samples().iter().filter(|sample| small(sample)) {
        for _ in 0..60 {
            let sheet = dice.damaged(&sample.sheet);
            let listing = dice.damaged(&sample.listing);
            for (sheet, listing) in [(&sheet, &sample.listing), (&sample.sheet, &listing)] {
                match write("damaged", sheet, listing) {
                    Ok(page) => check("damaged", sheet, listing, &page),
                    Err(error) => {
                        assert!(!error.is_empty());
                        errors += 1;
                    }
                }
            }
        }
    }
    assert!(errors > 500, "most damages are noticed: {errors}");
}
