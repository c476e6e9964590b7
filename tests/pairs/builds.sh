# Builds, with stand-ins for rt and cargo, since proving takes minutes.
# shellcheck shell=bash disable=SC2154,SC2034,SC2206

# A path with what pairs needs, and without rt, cargo and flock; then with some of them.
bare=$work/bare
mkdir "$bare" "$work/flock"
for tool in bash sh env cat readlink dirname mktemp rm mkdir mv find awk sort cut sleep head uname cp chmod touch grep; do
    ln -s "$(command -v "$tool")" "$bare/$tool"
done
ln -s "$(command -v flock)" "$work/flock/flock"
fakes=$here/fake:$bare

program=$root/target/bin/report
cp "$tree/target/view/release/view" "$work/view"
export FAKE_CRATES=$crates FAKE_PROGRAM=$program FAKE_VIEW=$work/view FAKE_RUNS=$work/runs
built() {
    local times
    times=$(grep -cx "$1" "$FAKE_RUNS")
    [ "$times" -eq "$2" ] || fault "$1 is built $times times and not $2"
}
forget() { rm -rf "$tree/target" "$tree"/crates/*/out "$FAKE_RUNS"; : >"$FAKE_RUNS"; }

progress() {
    local crates=($FAKE_CRATES) at
    local count=${#crates[@]}
    echo "pairs: building the program: proving up to $count crates, about 3 minutes for all on two processors"
    for at in "${!crates[@]}"; do echo "pairs:   $((at + 1)) of $count: ${crates[at]}"; done
}

begin "the first build"
forget
run "PATH=$fakes:$work/flock ./pairs $burnt"
status 0; prints "$listing"; same "$err" tells < <(progress)
built report 1; absent "$tree/target/view"

begin "no second build"
run "PATH=$fakes:$work/flock ./pairs $burnt"
status 0; prints "$listing"; tells ""; built report 1

begin "a built program needs no rt"
run "PATH=$bare ./pairs $burnt"
status 0; prints "$listing"; tells ""

begin "the program missing while its stamps are there"
rm "$tree/target/bin/report" "$tree/crates/report/out/report"
run "PATH=$fakes ./pairs $burnt"
status 0; prints "$listing"; tells_of ": report"; built report 2; built text 1

begin "rt missing where a build is needed"
rm "$tree/target/bin/report"
run "PATH=$bare ./pairs $burnt"
status 3; prints ""; tells_of "needs the Rattle kit"
run "PATH=$fakes ./pairs $burnt"
status 0

for source in crates.txt crates/text/src/lib.rt crates/recipe/specs/Rules.antt crates/calls/proofs; do
    begin "newer than the program: $source"
    sleep 0.02
    touch "$tree/$source"
    : >"$FAKE_RUNS"
    run "PATH=$fakes ./pairs $burnt"
    status 0; prints "$listing"; built rt 1
    run "PATH=$fakes ./pairs $burnt"
    built rt 1
done

begin "a source newer, and no rt"
touch "$tree/crates/text/src/lib.rt"
run "PATH=$bare ./pairs $burnt"
status 3; prints ""; tells_of "needs the Rattle kit"

begin "a source laid out with an older time, as by an archive"
run "PATH=$fakes:$work/flock ./pairs $burnt"
: >"$FAKE_RUNS"
sleep 0.02
echo "// laid out anew" >>"$tree/crates/text/src/lib.rt"
touch -d '2001-01-01' "$tree/crates/text/src/lib.rt" "$tree/crates/text/src"
run "PATH=$fakes:$work/flock ./pairs $burnt"
status 0; prints "$listing"; built rt 1

begin "a source that goes"
run "PATH=$fakes ./pairs $burnt"
touch "$tree/crates/text/specs/More.antt"
run "PATH=$fakes ./pairs $burnt"
sleep 0.02
rm "$tree/crates/text/specs/More.antt"
run "PATH=$bare ./pairs $burnt"
status 3; tells_of "needs the Rattle kit"

begin "a source that changes while it is built"
forget
run "FAKE_WAY=edits PATH=$fakes ./pairs $burnt"
status 0
: >"$FAKE_RUNS"
run "PATH=$fakes ./pairs $burnt"
status 0; prints "$listing"; built text 1

begin "a build that fails"
forget
run "FAKE_WAY=fails PATH=$fakes ./pairs $burnt"
status 3; prints ""; tells_of "pairs: the build failed; its log is $tree/target/pairs-report.log"
grep -qF "logic=not-proved" "$tree/target/pairs-report.log" || fault "the log does not say why"

begin "a build after one that failed"
run "PATH=$fakes ./pairs $burnt"
status 0; prints "$listing"; built text 1

begin "two builds at once"
forget
for one in 1 2; do
    (cd "$tree" && PATH=$fakes:$work/flock ./pairs "$burnt" >"$work/out$one" 2>"$work/err$one"; echo "$?" >"$work/status$one") &
done
wait
for one in 1 2; do
    [ "$(cat "$work/status$one")" = 0 ] || fault "status $(cat "$work/status$one")"
    same "$work/out$one" prints < <(printf %s "$listing")
done
built rt 1; built report 1
sort "$work/err1" "$work/err2" >"$err"
same "$err" tells < <({ progress; echo "pairs: another build is under way; waiting for it"; } | sort)

for signal in INT TERM KILL; do
    begin "a build broken off by $signal"
    forget
    run "PATH=$fakes:$work/flock ./pairs $burnt"
    rm "$tree/target/bin/report" "$tree/crates/report/out/report"
    # What is started in the background ignores INT, and bash cannot undo that.
    (cd "$tree" && exec setsid env --default-signal=INT FAKE_WAY=stalls "PATH=$fakes:$work/flock" ./pairs "$burnt") \
        >"$out" 2>"$err" &
    builder=$!
    for _ in {1..100}; do [ ! -e "$tree/target/bin/report" ] || break; sleep 0.05; done
    there "$tree/target/bin/report"
    # A shell passes over INT if the command that it waits for ends well, as the one that made the half program does.
    sleep 0.3
    kill -"$signal" -- "-$builder"
    wait "$builder" 2>/dev/null
    absent "$tree/target/pairs.report"
    run "PATH=$fakes:$work/flock ./pairs $burnt"
    status 0; prints "$listing"; built report 3; built text 1
done

begin "a target that cannot be written"
rm -rf "$tree/target"
: >"$tree/target"
run "PATH=$fakes ./pairs $burnt"
status 3; prints ""; tells "pairs: cannot write to $tree/target$line"

begin "a program that gives nothing"
forget
printf '#!/bin/sh\n' >"$work/silent"
chmod +x "$work/silent"
run "FAKE_PROGRAM=$work/silent PATH=$fakes ./pairs $burnt 2>&1 | tail -n 1; exit \${PIPESTATUS[0]}"
status 3; prints "pairs: the program gave no whole answer about $burnt$line"

begin "a program that dies"
forget
printf '#!/bin/sh\necho pairs\nexit 9\n' >"$work/silent"
run "FAKE_PROGRAM=$work/silent PATH=$fakes ./pairs $burnt 2>&1 | tail -n 1; exit \${PIPESTATUS[0]}"
status 3; prints "pairs: the program gave no whole answer about $burnt$line"

begin "a program that gives no answer, half of one and a whole one"
forget
cat >"$work/silent" <<'END'
#!/bin/sh
# Answers the sheet on standard input, or those in the files that are named.
answer() {
    case $1 in
        half) printf 'pairs\t2\trounds\t1\texact\n0\t1\n' ;;
        whole) printf 'pairs\t1\trounds\t1\texact\n0\t1\n' ;;
    esac
}
[ $# -gt 0 ] || { read -r sheet; answer "$sheet"; }
for name in "$@"; do echo "$name"; answer "$name"; done
END
for answer in silent half whole; do echo "$answer" >"$tree/$answer"; done
run "FAKE_PROGRAM=$work/silent PATH=$fakes ./pairs silent half whole"
status 3
prints "half${line}pairs${tab}2${tab}rounds${tab}1${tab}exact${line}0${tab}1${line}whole${line}pairs${tab}1${tab}rounds${tab}1${tab}exact${line}0${tab}1$line"
tells_of "no whole answer about silent"; tells_of "no whole answer about half"
! grep -q "about whole" "$err" || fault "tells of the whole answer"

begin "half an answer about a single sheet"
run "FAKE_PROGRAM=$work/silent PATH=$fakes ./pairs half"
status 3; prints ""; tells_of "no whole answer about half"

begin "what explains is built once, when it is needed"
forget
run "PATH=$fakes ./pairs $burnt"
built view 0
run "PATH=$fakes ./pairs $bad $bad"
status 1; tells_of "A step's label is 0 to 63."; built view 1
run "PATH=$bare ./pairs $bad"
status 1; tells "$(words "$bad")$line"; built view 1

begin "what explains is built again"
sleep 0.02
touch "$tree/view/src/explain.rs"
run "PATH=$fakes ./pairs $bad"
status 1; built view 2

begin "no cargo for a refusal"
touch "$tree/view/src/explain.rs"
run "PATH=$bare ./pairs $bad $bad"
status 1; prints "$bad$line$refused$bad$line$refused"
tells "pairs: the explanation of a refusal needs cargo, which is not on the path$line"

begin "no cargo for a page"
run "PATH=$bare ./pairs --page c.html $burnt"
status 3; prints ""; tells "pairs: a page needs cargo, which is not on the path$line"
absent "$tree/c.html"

begin "what explains does not build"
run "FAKE_VIEW= PATH=$fakes ./pairs $bad"
status 1; prints "$refused"; tells_of "its log is $tree/target/pairs-view.log"

parts=$((parts + 1))
