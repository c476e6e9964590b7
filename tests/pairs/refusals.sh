# Each refusal in words, by its exact text. The causes of each are held by view/tests/explain.rs.
# shellcheck shell=bash disable=SC2154,SC2034

# A sheet, the refusal's line, and the words that are due.
refusal() {
    begin "the words for: $1"
    printf %b "$1" >"$tree/s"
    run "./pairs s"
    status 1; prints "refused$tab$2$line"
    same "$err" tells
}

refusal '' "1${tab}0" <<'END'
s: refused, rows or procedures missing, or too many (1)
  The sheet has no row and no procedure.
  A recipe has 1 to 1,024 rows, the lines that begin with R.
  A recipe has 1 to 64 procedures, the lines behind the rows that begin with P; the first is main.
END
refusal 'R\tskip\t0\t0\n' "1${tab}0" <<'END'
s: refused, rows or procedures missing, or too many (1)
  The sheet has 1 row and no procedure.
  A recipe has 1 to 64 procedures, the lines behind the rows that begin with P; the first is main.
END
refusal 'R\tstep\t7\t0\nR\tseq\t0\t12\nP\t1\n' "4${tab}1" <<'END'
s: refused, an operand that its kind does not allow (4), row 1
  line 2, row 1:  R seq 0 12
                          ^^
  The second child of a seq is a row that stands before it: row 0.
END
refusal 'R\tskip\t0\t0\nP\t0\nP\t1\n' "5${tab}1" <<'END'
s: refused, a root that is not a row (5), procedure 1
  line 3, procedure 1:  P 1
                          ^
  A procedure's root is a row that the sheet has: there is row 0 alone.
END
refusal 'R\tskip\t0\t0\nR\tloop\t0\t0\nR\tseq\t0\t1\nP\t2\nP\t0\n' "6${tab}0" <<'END'
s: refused, a row that is used more than once (6), row 0
  line 1, row 0:  R skip 0 0
  is used 3 times:
  line 2, row 1:  R loop 0 0
                         ^
  line 3, row 2:  R seq 0 1
                        ^
  line 5, procedure 1:  P 0
                          ^
  A row is used once: as a child of one later row, or as the root of one procedure.
  If one of them should name another row, for instance a wait around this one, mend its number.
  Else give it a copy of the row and of the rows that it is built of, or make the row a procedure and call it.
END
refusal 'R\tskip\t0\t0\nR\tstep\t3\t0\nP\t0\n' "7${tab}1" <<'END'
s: refused, a row that is not used (7), row 1
  line 2, row 1:  R step 3 0
                  ^^^^^^^^^^
  A row is used once: as a child of one later row, or as the root of one procedure.
  Nothing uses this one.
END
refusal "$(printf 'x%.0s' {1..70000})" "11${tab}0" <<'END'
s: refused, a sheet that is too long (11)
  The sheet has 70,000 bytes. A sheet has at most 65,536. Is it the right file?
END
refusal 'R\tskip\t0\t0\nR\tstep 5\t0\nP\t1\n' "12${tab}1" <<'END'
s: refused, a malformed line (12), line 1 counted from 0, line 2 in an editor
  line 2:  R\tstep 5\t0
                  ^
  One tab is due here, and no space.
  (\t is a tab.)
END
refusal 'R\tskip\t0\t0\nP\t0' "12${tab}1" <<'END'
s: refused, a malformed line (12), line 1 counted from 0, line 2 in an editor
  line 2:  P\t0
               ^
  A newline is missing here: each line ends in one, the last one too.
  (\t is a tab.)
END
refusal "R\tskip\t0\t0\n$(printf 'P\\t0\\n%.0s' {1..65})" "13${tab}65" <<'END'
s: refused, a row or procedure too many (13), line 65 counted from 0, line 66 in an editor
  line 66:  P 0
            ^
  64 procedures stand before this one. A recipe has at most 64 procedures.
END
refusal "$(printf 'R\\tskip\\t0\\t0\\n%.0s' {1..1025})" "13${tab}1024" <<'END'
s: refused, a row or procedure too many (13), line 1024 counted from 0, line 1025 in an editor
  line 1025:  R skip 0 0
              ^
  1,024 rows stand before this one. A recipe has at most 1,024 rows.
END

parts=$((parts + 1))
