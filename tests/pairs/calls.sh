# How pairs is called, what is closed and what is lost.
# shellcheck shell=bash disable=SC2154,SC2034

for word in -h --help; do
    begin "$word"
    run "./pairs $word"
    cp "$out" "$work/usage"
    status 0; tells ""
    for due in 'usage: pairs' '--page' '  0  ' '  1  ' '  2  ' '  3  '; do
        grep -qF -- "$due" "$out" || fault "nothing of $due"
    done
done

for words in '' --list -x "--page" "--page $work/p.html" "--page $work/p.html $burnt $mended" "--page $work/p.html recipes" \
    "--page $work/p.html --page $work/q.html $burnt" "- -" "- $burnt -"; do
    begin "wrong use: pairs $words"
    run "./pairs $words </dev/null"
    status 2; prints ""
    tail -n +2 "$err" | cmp -s - "$work/usage" || fault "tells no usage"
done

for sheet in "$tree"/recipes/*.sheet; do
    begin "the sample $(basename "$sheet")"
    run "./pairs recipes/$(basename "$sheet")"
    same "$out" prints <"${sheet%.sheet}.listing"
    if grep -q ^refused "$out"; then status 1; else status 0; fi
done

begin "standard input"
run "./pairs - <$burnt"
status 0; prints "$listing"; tells ""

begin "standard input, a pipe, refused"
run "cat $bad | ./pairs -"
status 1; prints "$refused"; tells "$(words "standard input")$line"

begin "a sheet that can be read only once"
run "./pairs <(cat $bad)"
status 1; prints "$refused"; tells_of "A step's label is 0 to 63."

begin "standard input without end"
run "yes | ./pairs -"
status 1; prints "refused${tab}11${tab}0$line"; tells_of "65,537 bytes or more"

begin "standard input that cannot be read"
run "./pairs - <recipes"
status 2; prints ""; tells "pairs: cannot read standard input$line"

begin "several sheets"
run "./pairs $mended $burnt"
status 0; prints "$mended$line$none$burnt$line$listing"; tells ""

begin "several sheets, one from standard input"
run "./pairs $mended - <$burnt"
status 0; prints "$mended$line$none-$line$listing"; tells ""

begin "several sheets, one refused"
run "./pairs $bad $burnt"
status 1; prints "$bad$line$refused$burnt$line$listing"; tells "$(words "$bad")$line"

begin "a file that is missing"
run "./pairs nothing.sheet"
status 2; prints ""; tells "pairs: there is no file nothing.sheet$line"

begin "a file that is missing beside others"
run "./pairs $bad nothing.sheet $burnt"
status 2; prints "$bad$line$refused$burnt$line$listing"; tells_of "pairs: there is no file nothing.sheet"

# A folder of sheets, with names that sort by their bytes, and with much that is no sheet.
folder="$tree/a folder"
mkdir "$folder" "$folder/deeper" "$folder/not.sheet" "$tree/empty"
cp "$tree/$burnt" "$folder/b.sheet"
cp "$tree/$mended" "$folder/B.sheet"
cp "$tree/$bad" "$folder/a b.sheet"
cp "$tree/$bad" "$folder/.hidden.sheet"
cp "$tree/$bad" "$folder/other.txt"
cp "$tree/$bad" "$folder/deeper/c.sheet"
in_folder="a folder/B.sheet$line${none}a folder/a b.sheet$line${refused}a folder/b.sheet$line$listing"

for given in 'a folder' 'a folder/'; do
    begin "the folder '$given'"
    run "./pairs '$given'"
    status 1; prints "$in_folder"; tells "$(words "a folder/a b.sheet")$line"
done

begin "a folder beside files"
run "./pairs $burnt 'a folder'"
status 1; prints "$burnt$line$listing$in_folder"

begin "a folder without sheets"
run "./pairs empty"
status 2; prints ""; tells "pairs: no file in empty ends in .sheet$line"

begin "a folder of one sheet"
cp "$tree/$burnt" "$tree/empty/one.sheet"
run "./pairs empty"
status 0; prints "empty/one.sheet$line$listing"; tells ""

# Names that look like something else.
mkdir "$tree/odd"
newline="two${line}lines.sheet"
for odd in -h --page -x.sheet 'a b.sheet' "$newline" "it's.sheet" '$HOME.sheet' '*'; do
    cp "$tree/$burnt" "$tree/odd/$odd"
    begin "a file named '${odd//$line/|}'"
    run "cd odd && ../pairs -- $(printf %q "$odd")"
    status 0; prints "$listing"; tells ""
done

begin "odd names beside each other"
run "cd odd && ../pairs -- -h $(printf %q "$newline")"
status 0; prints "-h$line$listing$newline$line$listing"

begin "a refused file with a tab in its name beside another"
cp "$tree/$bad" "$tree/odd/a${tab}b"
run "cd odd && ../pairs 'a${tab}b' it*"
status 1; prints "a${tab}b$line${refused}it's.sheet$line$listing"; tells "$(words 'a\tb')$line"

begin "many sheets"
mkdir "$tree/many"
many=''
for number in {100..350}; do
    ln -s "../$burnt" "$tree/many/$number.sheet"
    many="${many}many/$number.sheet$line$listing"
done
run "./pairs many"
status 0; prints "$many"; tells ""

begin "standard input behind --"
run "./pairs -- - <$burnt"
status 0; prints "$listing"

begin "a refused file with an odd name"
cp "$tree/$bad" "$tree/odd/"$'\e[1mb\xff'
run "cd odd && ../pairs \$'\\e[1mb\\xff'"
status 1; prints "$refused"; tells "$(words '\u{1b}[1mb�')$line"

begin "several sheets, with names that are no UTF-8"
cp "$tree/$burnt" "$tree/odd/"$'a\xff'
cp "$tree/$burnt" "$tree/odd/"$'b\xfe'
run "cd odd && ../pairs \$'a\\xff' \$'b\\xfe'"
status 0; prints $'a\xff'"$line$listing"$'b\xfe'"$line$listing"; tells ""

begin "from another folder"
run "cd / && '$tree/pairs' '$tree/$burnt'"
status 0; prints "$listing"; tells ""

ln -s "$tree/pairs" "$work/link"
ln -s ../../link "$tree/odd/link-to-link"
for way in "$work/link" odd/link-to-link 'sh pairs' 'sh ./pairs' 'bash --posix pairs' "cd /; sh $work/link"; do
    begin "called as $way"
    run "$way $tree/$burnt"
    status 0; prints "$listing"; tells ""
done

# ---- closed and lost

begin "a file, standard input closed"
run "./pairs $burnt <&-"
status 0; prints "$listing"; tells ""

begin "a refusal, standard input closed"
run "./pairs $bad <&-"
status 1; prints "$refused"; tells "$(words "$bad")$line"

begin "standard input closed and asked for"
run "./pairs - <&-"
status 2; prints ""; tells "pairs: cannot read standard input$line"

begin "sh, standard input closed"
run "sh pairs $burnt <&-"
status 0; prints "$listing"; tells ""

begin "standard error closed"
run "./pairs $bad 2>&-"
status 1; prints "$refused"

for words in "$burnt" "$bad" "$burnt $mended" -h; do
    begin "no room for the output: pairs $words"
    run "./pairs $words >/dev/full"
    status 3; tells "$lost"

    begin "closed output: pairs $words"
    run "./pairs $words >&-"
    status 3; tells "pairs: the output was lost: standard output is closed$line"

    begin "a reader who has gone: pairs $words"
    run "{ sleep 0.1; ./pairs $words; echo \$? >'$work/status'; } | true"
    status=$(cat "$work/status")
    status 3; tells "$lost"
done

begin "nothing can be written anywhere"
run "./pairs $burnt >/dev/full 2>/dev/full"
status 3

begin "a reader of standard error who has gone"
run "{ sleep 0.1; ./pairs $bad 2>&1 >'$work/printed'; echo \$? >'$work/status'; } | true"
status=$(cat "$work/status")
status 1; same "$work/printed" prints < <(printf %s "$refused")

# Files that are there, with leave to read them, and cannot be opened or read.
python3 -c 'import socket, sys; socket.socket(socket.AF_UNIX).bind(sys.argv[1])' "$tree/s.sheet" 2>/dev/null
for odd in s.sheet /proc/1/mem; do
    (cd "$tree" && [ -r "$odd" ] && ! { : <"$odd"; } 2>/dev/null) || continue
    for words in "$odd" "$odd $burnt" "--page odd.html $odd"; do
        begin "not to be opened: pairs $words"
        run "./pairs $words"
        status 2; tells_of "cannot read $odd"; absent "$tree/odd.html"
    done
done
rm -f "$tree/s.sheet"

begin "a link that leads nowhere, in a folder"
mkdir "$tree/links"
ln -s nowhere "$tree/links/a.sheet"
cp "$tree/$burnt" "$tree/links/b.sheet"
run "./pairs links"
status 2; prints "links/b.sheet$line$listing"; tells "pairs: there is no file links/a.sheet$line"

begin "a name that would do something to a terminal"
run "./pairs $'no\e[31m.sheet'"
status 2; tells "pairs: there is no file no?[31m.sheet$line"

begin "a temporary folder with a tab in its name"
mkdir "$work/t${tab}x"
run "TMPDIR='$work/t${tab}x' ./pairs - <$burnt"
status 3; prints ""; tells_of "has a tab or a newline in its name"

begin "no room for temporary files"
run "TMPDIR=$work/nowhere ./pairs - <$burnt"
status 3; prints ""; tells_of "pairs: cannot make a temporary folder"

# As nobody, who can neither read a private file nor write to target/.
if [ "$(id -u)" = 0 ] && command -v setpriv >/dev/null; then
    chmod 755 "$work"
    cp "$tree/$burnt" "$tree/private.sheet"
    chmod 600 "$tree/private.sheet"
    nobody='setpriv --reuid=65534 --regid=65534 --clear-groups'
    mkdir "$tree/closed"
    cp "$tree/$burnt" "$tree/closed/"
    chmod 700 "$tree/closed"
    begin "a folder that may not be read"
    run "$nobody ./pairs closed"
    status 2; prints ""; tells "pairs: cannot read closed$line"
    begin "a file that may not be read"
    run "$nobody ./pairs private.sheet $burnt"
    status 2; prints "$burnt$line$listing"; tells "pairs: cannot read private.sheet$line"
fi

parts=$((parts + 1))
