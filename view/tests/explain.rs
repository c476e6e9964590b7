//! Every refusal in words: each cause of each number by its text, with the marks in their columns.
use std::ffi::OsStr;
use std::fs;
use std::os::unix::ffi::OsStrExt;
use std::path::PathBuf;
use std::process::{Command, Output};
use std::sync::atomic::{AtomicUsize, Ordering};

/// A file of our own with these bytes, gone at the end.
struct Sheet(PathBuf);

impl Sheet {
    fn new(bytes: &[u8]) -> Sheet {
        static COUNT: AtomicUsize = AtomicUsize::new(0);
        let number = COUNT.fetch_add(1, Ordering::Relaxed);
        let name = format!("explain-{}-{number}.sheet", std::process::id());
        let file = std::env::temp_dir().join(name);
        fs::write(&file, bytes).expect("a temporary file can be written");
        Sheet(file)
    }
}

impl Drop for Sheet {
    fn drop(&mut self) {
        let _ = fs::remove_file(&self.0);
    }
}

fn view(words: &[&OsStr]) -> Output {
    Command::new(env!("CARGO_BIN_EXE_view"))
        .args(words)
        .output()
        .expect("view can be started")
}

fn explained_as(name: &OsStr, sheet: &[u8], number: usize, place: usize) -> String {
    let file = Sheet::new(sheet);
    let (number, place) = (number.to_string(), place.to_string());
    let words: [&OsStr; 5] = [
        "explain".as_ref(),
        name,
        file.0.as_ref(),
        number.as_ref(),
        place.as_ref(),
    ];
    let output = view(&words);
    assert_eq!(output.status.code(), Some(0));
    assert_eq!(output.stderr, b"");
    String::from_utf8(output.stdout).expect("the text is UTF-8")
}

fn explained(sheet: &[u8], number: usize, place: usize) -> String {
    explained_as("s".as_ref(), sheet, number, place)
}

/// What stands below the headline.
fn body(sheet: &[u8], number: usize, place: usize) -> String {
    let text = explained(sheet, number, place);
    let (_, body) = text.split_once('\n').expect("a headline");
    body.to_string()
}

const CHANGED: &str = "  The sheet does not show why any more; has it changed since it was read?\n";

/// The shown line, its marks and the rules of row 2 in a sheet of two skips, this row and two procedures.
fn operand(row: &str) -> String {
    let sheet = format!("R skip 0 0\nR skip 0 0\n{row}\nP 0\nP 1\n").replace(' ', "\t");
    body(sheet.as_bytes(), 4, 2)
}

/// What is due about row 2: the row, its marks and the rules that it breaks.
fn due(row: &str, marks: &str, rules: &[&str]) -> String {
    let head = "  line 3, row 2:  ";
    let mut text = format!("{head}{row}\n{}{marks}\n", " ".repeat(head.len()));
    for rule in rules {
        text.push_str(&format!("  {rule}\n"));
    }
    text
}

#[test]
fn operands_each_cause() {
    let cases: &[(&str, &str, &[&str])] = &[
        (
            "R skip 1 0",
            "       ^",
            &["A skip has no operands: x is 0."],
        ),
        (
            "R skip 0 20",
            "         ^^",
            &["A skip has no operands: y is 0."],
        ),
        (
            "R skip 1 20",
            "       ^ ^^",
            &[
                "A skip has no operands: x is 0.",
                "A skip has no operands: y is 0.",
            ],
        ),
        ("R step 64 0", "       ^^", &["A step's label is 0 to 63."]),
        (
            "R step 9999 0",
            "       ^^^^",
            &["A step's label is 0 to 63."],
        ),
        (
            "R step 63 1",
            "          ^",
            &["A step has one operand, its label: y is 0."],
        ),
        (
            "R step 64 1",
            "       ^^ ^",
            &[
                "A step's label is 0 to 63.",
                "A step has one operand, its label: y is 0.",
            ],
        ),
        (
            "R seq 2 0",
            "      ^",
            &["The first child of a seq is a row that stands before it: 0 to 1."],
        ),
        (
            "R seq 0 2",
            "        ^",
            &["The second child of a seq is a row that stands before it: 0 to 1."],
        ),
        (
            "R seq 12 3",
            "      ^^ ^",
            &[
                "The first child of a seq is a row that stands before it: 0 to 1.",
                "The second child of a seq is a row that stands before it: 0 to 1.",
            ],
        ),
        (
            "R loop 2 0",
            "       ^",
            &["The child of a loop is a row that stands before it: 0 to 1."],
        ),
        (
            "R loop 1 7",
            "         ^",
            &["A loop has one operand, its child: y is 0."],
        ),
        (
            "R async 3 0",
            "        ^",
            &["The child of an async is a row that stands before it: 0 to 1."],
        ),
        (
            "R async 1 7",
            "          ^",
            &["An async has one operand, its child: y is 0."],
        ),
        (
            "R finish 2 0",
            "         ^",
            &["The child of a finish is a row that stands before it: 0 to 1."],
        ),
        (
            "R finish 1 7",
            "           ^",
            &["A finish has one operand, its child: y is 0."],
        ),
        (
            "R call 2 0",
            "       ^",
            &["A call's procedure is one that the sheet has: 0 to 1."],
        ),
        (
            "R call 1 7",
            "         ^",
            &["A call has one operand, its procedure: y is 0."],
        ),
    ];
    for (row, marks, rules) in cases {
        assert_eq!(operand(row), due(row, marks, rules), "{row}");
    }
}

#[test]
fn operands_that_are_right_are_not_marked() {
    for row in [
        "R skip 0 0",
        "R step 63 0",
        "R seq 1 1",
        "R loop 1 0",
        "R async 0 0",
        "R finish 1 0",
        "R call 1 0",
    ] {
        assert_eq!(operand(row), CHANGED, "{row}");
    }
}

#[test]
fn operands_of_the_first_rows() {
    let first = body(b"R\tloop\t0\t0\nP\t0\n", 4, 0);
    assert!(
        first.contains("stands before it: row 0 has none before it."),
        "{first}"
    );
    let second = body(b"R\tskip\t0\t0\nR\tfinish\t1\t0\nP\t1\n", 4, 1);
    assert!(second.contains("stands before it: row 0."), "{second}");
    let alone = body(b"R\tcall\t1\t0\nP\t0\n", 4, 0);
    assert!(alone.contains("there is procedure 0 alone."), "{alone}");
}

/// What is said about a malformed first line: what is shown, the marks, and the rule.
fn form(line: &[u8]) -> (String, String, String) {
    let text = body(line, 12, 0);
    let mut lines = text.lines();
    let shown = lines.next().unwrap_or_default();
    let marks = lines.next().unwrap_or_default();
    let rule = lines.next().unwrap_or_default();
    let head = "  line 1:  ";
    assert!(shown.starts_with(head), "{text}");
    (
        shown[head.len()..].to_string(),
        marks.get(head.len()..).unwrap_or_default().to_string(),
        rule.trim_start().to_string(),
    )
}

const RETURN: &str = "A carriage return stands here. A line ends in a newline alone: save the sheet with such line ends.";
const MARK: &str = "A line begins with R for a row or P for a procedure, and a tab.";
const KIND: &str = "A kind is skip, step, seq, loop, async, finish or call.";
const UNUSED: &str = "An operand that is not used is written as 0.";

#[test]
fn malformed_each_cause() {
    let no_kind = format!("There is no such kind. {KIND}");
    let kind_missing = format!("The kind, x and y are missing here. {KIND}");
    let operands_missing = format!("x and y are missing here. {UNUSED}");
    let y_missing = format!("y is missing here. {UNUSED}");
    let before = format!("Blanks stand before the line. {MARK}");
    let order_mark =
        format!("A byte order mark stands here. {MARK} Save the sheet without the mark.");
    let cases: &[(&[u8], &str, &str, &str)] = &[
        // The line's beginning.
        (b"\n", "", "^", "The line is empty. Take it out."),
        (b"\r\n", r"\r", "^^", RETURN),
        (b"Q\t0\n", r"Q\t0", "^", MARK),
        (b"row\tskip\t0\t0\n", r"row\tskip\t0\t0", "^^^", MARK),
        (b"r\tskip\t0\t0\n", r"r\tskip\t0\t0", "^", MARK),
        (b"# a remark\n", "# a remark", "^", MARK),
        (b" R\tskip\t0\t0\n", r" R\tskip\t0\t0", "^", &before),
        (b"\tR\tskip\t0\t0\n", r"\tR\tskip\t0\t0", "^^", &before),
        (
            b"\xFF\xFER\0\t\0\n\0",
            r"\xFF\xFER\x00\t\x00",
            "^^^^^^^^",
            "The file is saved as UTF-16. Save it as plain text, UTF-8 without a byte order mark.",
        ),
        (
            b"\xEF\xBB\xBFP\t0\n",
            r"\xEF\xBB\xBFP\t0",
            "^^^^^^^^^^^^",
            &order_mark,
        ),
        (b"R\n", "R", " ^", "The kind, x and y are missing here."),
        (
            b"R step\t0\t0\n",
            r"R step\t0\t0",
            " ^",
            "One tab is due here, and no space.",
        ),
        (
            b"Rstep\t0\t0\n",
            r"Rstep\t0\t0",
            " ^^^^",
            "A tab is due here.",
        ),
        (b"P\n", "P", " ^", "The root is missing here."),
        (b"P 0\n", "P 0", " ^", "One tab is due here, and no space."),
        // The kind.
        (b"R\t\n", r"R\t", "   ^", &kind_missing),
        (
            b"R\t\tskip\t0\t0\n",
            r"R\t\tskip\t0\t0",
            "   ^^",
            "One tab stands between two fields, not more.",
        ),
        (
            b"R\t skip\t0\t0\n",
            r"R\t skip\t0\t0",
            "   ^",
            "No space stands before a field.",
        ),
        (b"R\tstop\t0\t0\n", r"R\tstop\t0\t0", "   ^^^^", &no_kind),
        (b"R\tsteps\t0\t0\n", r"R\tsteps\t0\t0", "   ^^^^^", &no_kind),
        (
            b"R\tStep\t0\t0\n",
            r"R\tStep\t0\t0",
            "   ^^^^",
            "Kinds are written in small letters.",
        ),
        (
            b"R\tst\x01p\t0\t0\n",
            r"R\tst\x01p\t0\t0",
            "   ^^^^^^^",
            &no_kind,
        ),
        (
            b"R\tst\xC3\xA9p\t0\t0\n",
            r"R\tst\xC3\xA9p\t0\t0",
            "   ^^^^^^^^^^^",
            &no_kind,
        ),
        (b"R\tst\\p\t0\t0\n", r"R\tst\\p\t0\t0", "   ^^^^^", &no_kind),
        (b"R\tskip\n", r"R\tskip", "       ^", &operands_missing),
        (b"R\tskip\r\n", r"R\tskip\r", "       ^^", RETURN),
        (
            b"R\tskip 0\t0\n",
            r"R\tskip 0\t0",
            "       ^",
            "One tab is due here, and no space.",
        ),
        (
            b"R\tskip  0\t0\n",
            r"R\tskip  0\t0",
            "       ^^",
            "One tab is due here, and no space.",
        ),
        // x.
        (
            b"R\tskip\t\n",
            r"R\tskip\t",
            "         ^",
            "A number is missing here: x.",
        ),
        (
            b"R\tskip\t\t0\n",
            r"R\tskip\t\t0",
            "         ^^",
            "One tab stands between two fields, not more.",
        ),
        (
            b"R\tskip\t 0\t0\n",
            r"R\tskip\t 0\t0",
            "         ^",
            "No space stands before a field.",
        ),
        (b"R\tskip\t\r\n", r"R\tskip\t\r", "         ^^", RETURN),
        (
            b"R\tskip\t00\t0\n",
            r"R\tskip\t00\t0",
            "         ^^",
            "A number has no leading zero, save 0 itself.",
        ),
        (
            b"R\tstep\t063\t0\n",
            r"R\tstep\t063\t0",
            "         ^^^",
            "A number has no leading zero, save 0 itself.",
        ),
        (
            b"R\tstep\t12345\t0\n",
            r"R\tstep\t12345\t0",
            "         ^^^^^",
            "A number has at most four digits.",
        ),
        (
            b"R\tstep\tfive\t0\n",
            r"R\tstep\tfive\t0",
            "         ^^^^",
            "A number, x, stands here, and a number has digits alone.",
        ),
        (
            b"R\tstep\t-1\t0\n",
            r"R\tstep\t-1\t0",
            "         ^^",
            "A number, x, stands here, and a number has digits alone.",
        ),
        (
            b"R\tstep\t5a\t0\n",
            r"R\tstep\t5a\t0",
            "          ^",
            "A number, x, stands here, and a number has digits alone.",
        ),
        (b"R\tstep\t5\n", r"R\tstep\t5", "          ^", &y_missing),
        (
            b"R\tstep\t5 0\n",
            r"R\tstep\t5 0",
            "          ^",
            "One tab is due here, and no space.",
        ),
        (b"R\tstep\t5\r\n", r"R\tstep\t5\r", "          ^^", RETURN),
        // y.
        (
            b"R\tstep\t5\t\n",
            r"R\tstep\t5\t",
            "            ^",
            "A number is missing here: y.",
        ),
        (
            b"R\tstep\t5\t\t0\n",
            r"R\tstep\t5\t\t0",
            "            ^^",
            "One tab stands between two fields, not more.",
        ),
        (
            b"R\tstep\t5\t00\n",
            r"R\tstep\t5\t00",
            "            ^^",
            "A number has no leading zero, save 0 itself.",
        ),
        (
            b"R\tstep\t5\t10000\n",
            r"R\tstep\t5\t10000",
            "            ^^^^^",
            "A number has at most four digits.",
        ),
        (
            b"R\tstep\t5\tx\n",
            r"R\tstep\t5\tx",
            "            ^",
            "A number, y, stands here, and a number has digits alone.",
        ),
        (
            b"R\tstep\t5\t0x\n",
            r"R\tstep\t5\t0x",
            "             ^",
            "A number, y, stands here, and a number has digits alone.",
        ),
        (
            b"R\tstep\t5\t0 \n",
            r"R\tstep\t5\t0",
            "             ^",
            "Nothing stands behind y, the last number of a row.",
        ),
        (
            b"R\tstep\t5\t0\t\n",
            r"R\tstep\t5\t0\t",
            "             ^^",
            "Nothing stands behind y, the last number of a row.",
        ),
        (
            b"R\tstep\t5\t0\t# heat\n",
            r"R\tstep\t5\t0\t# heat",
            "             ^^^^^^^^",
            "Nothing stands behind y, the last number of a row.",
        ),
        (
            b"R\tstep\t5\t0\r\n",
            r"R\tstep\t5\t0\r",
            "             ^^",
            RETURN,
        ),
        (
            b"R\tstep\t5\t0",
            r"R\tstep\t5\t0",
            "             ^",
            "A newline is missing here: each line ends in one, the last one too.",
        ),
        // The root.
        (
            b"P\t\n",
            r"P\t",
            "   ^",
            "A number is missing here: the root.",
        ),
        (
            b"P\tmain\n",
            r"P\tmain",
            "   ^^^^",
            "A number, the root, stands here, and a number has digits alone.",
        ),
        (
            b"P\t01\n",
            r"P\t01",
            "   ^^",
            "A number has no leading zero, save 0 itself.",
        ),
        (
            b"P\t10000\n",
            r"P\t10000",
            "   ^^^^^",
            "A number has at most four digits.",
        ),
        (
            b"P\t0\t0\n",
            r"P\t0\t0",
            "    ^^^",
            "Nothing stands behind the root, the only number of a procedure.",
        ),
        (b"P\t0\r\n", r"P\t0\r", "    ^^", RETURN),
        (
            b"P\t0",
            r"P\t0",
            "    ^",
            "A newline is missing here: each line ends in one, the last one too.",
        ),
    ];
    for (line, shown, marks, rule) in cases {
        let due = (shown.to_string(), marks.to_string(), rule.to_string());
        if *line == b"\n" {
            // Nothing is shown of an empty line, not even the blanks of its head.
            assert_eq!(
                body(line, 12, 0),
                format!("  line 1:\n           ^\n  {rule}\n")
            );
        } else {
            assert_eq!(form(line), due);
        }
    }
}

#[test]
fn tabs_are_spelt_and_said_where_the_form_is_wrong() {
    assert!(body(b"R\tstep 5\t0\n", 12, 0).ends_with("  (\\t is a tab.)\n"));
    assert!(!body(b"R step 5 0\n", 12, 0).contains("is a tab"));
}

#[test]
fn a_row_behind_a_procedure() {
    assert_eq!(
        explained(b"R\tskip\t0\t0\nP\t0\nR\tskip\t0\t0\n", 12, 2),
        "s: refused, a malformed line (12), line 2 counted from 0, line 3 in an editor\n\
         \x20 line 3:  R\\tskip\\t0\\t0\n\
         \x20          ^\n\
         \x20 A row stands before all procedures, and line 2 is a procedure.\n\
         \x20 (\\t is a tab.)\n"
    );
}

#[test]
fn a_right_line_is_not_marked() {
    for line in [
        &b"R\tstep\t63\t0\n"[..],
        b"R\tseq\t9999\t9999\n",
        b"P\t0\n",
        b"P\t1023\n",
    ] {
        assert_eq!(body(line, 12, 0), CHANGED);
    }
}

#[test]
fn long_lines_are_cut_and_keep_the_marks() {
    let mut line = b"R\tstep\t5\t0\t".to_vec();
    line.extend([b'x'; 60_000]);
    line.push(b'\n');
    let (shown, marks, _) = form(&line);
    assert!(shown.starts_with(r"R\tstep\t5\t0\txxx") && shown.ends_with("x..."));
    assert!(shown.len() < 80 && marks.len() < 80);
    assert!(marks.starts_with("             ^^^") && marks.ends_with('^'));

    let mut line = vec![b'\x01'; 30_000];
    line[0] = b'R';
    line[1] = b'\t';
    line.push(b'\n');
    let (shown, marks, _) = form(&line);
    assert_eq!(&shown[..7], r"R\t\x01");
    assert_eq!(&marks[..7], "   ^^^^");

    let mut line = b"R\t".to_vec();
    line.extend([b'q'; 200]);
    let (shown, marks, _) = form(&line);
    assert_eq!(shown, format!(r"R\t{}...", "q".repeat(69)));
    assert_eq!(marks, format!("   {}", "^".repeat(69)));
}

#[test]
fn sizes() {
    assert_eq!(
        body(b"", 1, 0),
        "  The sheet has no row and no procedure.\n\
         \x20 A recipe has 1 to 1,024 rows, the lines that begin with R.\n\
         \x20 A recipe has 1 to 64 procedures, the lines behind the rows that begin with P; the first is main.\n"
    );
    assert_eq!(
        body(b"R\tskip\t0\t0\nR\tskip\t0\t0\n", 1, 0),
        "  The sheet has 2 rows and no procedure.\n\
         \x20 A recipe has 1 to 64 procedures, the lines behind the rows that begin with P; the first is main.\n"
    );
    assert_eq!(
        body(b"P\t0\n", 1, 0),
        "  The sheet has no row and 1 procedure.\n\
         \x20 A recipe has 1 to 1,024 rows, the lines that begin with R.\n"
    );
    assert_eq!(body(b"R\tskip\t0\t0\nP\t0\n", 1, 0), CHANGED);
}

#[test]
fn roots() {
    assert_eq!(
        explained(b"R\tskip\t0\t0\nR\tskip\t0\t0\nP\t0\nP\t1000\n", 5, 1),
        "s: refused, a root that is not a row (5), procedure 1\n\
         \x20 line 4, procedure 1:  P 1000\n\
         \x20                         ^^^^\n\
         \x20 A procedure's root is a row that the sheet has: 0 to 1.\n"
    );
    assert_eq!(body(b"R\tskip\t0\t0\nP\t0\n", 5, 0), CHANGED);
}

#[test]
fn users() {
    // Only sequences use y, and neither steps nor calls use rows.
    let sheet = b"R\tskip\t0\t0\nR\tstep\t0\t0\nR\tcall\t0\t0\nR\tseq\t1\t0\nR\tasync\t0\t0\nR\tfinish\t0\t0\nP\t3\nP\t0\n";
    assert_eq!(
        body(sheet, 6, 0),
        "  line 1, row 0:  R skip 0 0\n\
         \x20 is used 4 times:\n\
         \x20 line 4, row 3:  R seq 1 0\n\
         \x20                         ^\n\
         \x20 line 5, row 4:  R async 0 0\n\
         \x20                         ^\n\
         \x20 line 6, row 5:  R finish 0 0\n\
         \x20                          ^\n\
         \x20 line 8, procedure 1:  P 0\n\
         \x20                         ^\n\
         \x20 A row is used once: as a child of one later row, or as the root of one procedure.\n\
         \x20 If one of them should name another row, for instance a wait around this one, mend its number.\n\
         \x20 Else give it a copy of the row and of the rows that it is built of, or make the row a procedure and call it.\n"
    );
    assert_eq!(body(sheet, 6, 1), CHANGED);
    assert_eq!(
        body(sheet, 7, 2),
        "  line 3, row 2:  R call 0 0\n\
         \x20                 ^^^^^^^^^^\n\
         \x20 A row is used once: as a child of one later row, or as the root of one procedure.\n\
         \x20 Nothing uses this one.\n"
    );
    assert_eq!(body(sheet, 7, 0), CHANGED);
}

#[test]
fn too_long() {
    assert_eq!(
        explained(&[b'x'; 65_537], 11, 0),
        "s: refused, a sheet that is too long (11)\n  The sheet has 65,537 bytes or more. A sheet has at most 65,536. Is it the right file?\n"
    );
    assert!(body(&vec![b'x'; 1_234_567], 11, 0).contains("1,234,567 bytes."));
    assert_eq!(body(&[b'x'; 65_536], 11, 0), CHANGED);
}

#[test]
fn too_many() {
    let mut rows = b"R\tskip\t0\t0\n".repeat(1_025);
    let text = body(&rows, 13, 1_024);
    assert!(
        text.starts_with("  line 1025:  R skip 0 0\n              ^\n"),
        "{text}"
    );
    assert!(text.contains("at most 1,024 rows"));
    rows.truncate(11 * 1_024);
    rows.extend(b"P\t0\n".repeat(65));
    let text = body(&rows, 13, 1_088);
    assert!(
        text.starts_with("  line 1089:  P 0\n              ^\n"),
        "{text}"
    );
    assert!(text.contains("at most 64 procedures"));
    assert_eq!(body(&rows, 13, 1_087), CHANGED);
    assert_eq!(body(&rows, 13, 2_000), CHANGED);
}

#[test]
fn what_no_sheet_causes() {
    assert_eq!(
        explained(b"R\tskip\t0\t0\nP\t0\n", 2, 0),
        "s: refused, a matrix of too few words (2)\n\
         \x20 The program lends a matrix that is large enough, so that no sheet is refused with this.\n"
    );
    assert_eq!(
        explained(b"R\tskip\t0\t0\nP\t0\n", 3, 0),
        format!("s: refused, an unknown kind (3), row 0\n  {KIND}\n")
    );
    assert_eq!(
        explained(b"", 14, 0),
        "s: refused, a listing or a sheet that does not fit (14)\n\
         \x20 The program lends bytes for the longest listing and writes no sheet, so that no sheet is refused with this.\n"
    );
    assert_eq!(
        explained(b"R\tskip\t0\t0\nP\t0\n", 15, 3),
        "s: refused, a number that no sheet can hold (15), row or procedure 3\n\
         \x20 Numbers on a sheet go up to 9,999. Only rows and roots that are to be written can have others, \
         so that no sheet is refused with this.\n"
    );
    assert_eq!(
        explained(b"", 99, 5),
        format!("s: refused, for a reason that has no words here (99), place 5\n{CHANGED}")
    );
}

#[test]
fn a_sheet_that_has_changed() {
    for number in [1, 4, 5, 6, 7, 11, 12, 13] {
        for sheet in [&b"R\tskip\t0\t0\nP\t0\n"[..], b"P\t0\nR\tx"] {
            assert_eq!(body(sheet, number, 9_999), CHANGED, "{number}");
        }
    }
    let missing = view(&["explain", "s", "/nowhere/s.sheet", "4", "0"].map(OsStr::new));
    assert_eq!(missing.status.code(), Some(0));
    let text = String::from_utf8_lossy(&missing.stdout).into_owned();
    assert_eq!(
        text,
        format!("s: refused, an operand that its kind does not allow (4), row 0\n{CHANGED}")
    );
}

/// Whatever the bytes, the number and the place, there is a text, in lines of bounded width.
#[test]
fn any_bytes() {
    let mut seed: u32 = 7;
    let mut next = |below: u32| {
        seed = seed.wrapping_mul(1_664_525).wrapping_add(1_013_904_223);
        (seed >> 8) % below
    };
    let pieces: [&[u8]; 16] = [
        b"R", b"P", b"\t", b"\t", b"\t", b"\n", b"\n", b"0", b"1", b"64", b"seq", b"call",
        b"async", b" ", b"\r", b"\xFF",
    ];
    for _ in 0..150 {
        let mut sheet = Vec::new();
        for _ in 0..next(40) {
            sheet.extend(pieces[next(16) as usize]);
        }
        let number = [1, 2, 3, 4, 5, 6, 7, 11, 12, 13, 14, 15][next(12) as usize];
        let text = explained(&sheet, number, next(4) as usize);
        assert!(text.starts_with("s: refused, ") && text.ends_with('\n'));
        assert!(text.lines().all(|line| line.len() < 200));
    }
}

#[test]
fn names() {
    let odd = OsStr::from_bytes(b"a\xFF b\n\x1B[1m");
    let text = explained_as(odd, b"", 1, 0);
    assert!(
        text.starts_with("a\u{FFFD} b\\n\\u{1b}[1m: refused, "),
        "{text}"
    );
}

#[test]
fn wrong_use() {
    for words in [
        &[][..],
        &["explain"],
        &["explain", "s", "s.sheet", "four", "0"],
        &["explain", "s", "s.sheet", "4", "-1"],
        &["paint", "s", "s.sheet", "4", "0"],
        &["page", "s", "s.sheet", "s.listing"],
    ] {
        let words: Vec<&OsStr> = words.iter().map(OsStr::new).collect();
        let output = view(&words);
        assert_eq!(output.status.code(), Some(2));
        assert_eq!(output.stdout, b"");
        assert!(output.stderr.starts_with(b"usage: view explain"));
    }
}
