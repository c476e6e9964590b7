# Pages: that they are written as a whole or not at all. What stands on them is held by the tests of view/.
# shellcheck shell=bash disable=SC2154,SC2034

begin "a page"
run "./pairs --page p.html $burnt"
status 0; prints ""; tells ""
grep -qF "$burnt" "$tree/p.html" || fault "the page does not name the sheet"
grep -qi '^<!doctype html>' "$tree/p.html" || fault "the page is no page"

begin "a page of standard input, in a folder with a blank, options last"
run "./pairs - --page 'a folder/p.html' <$burnt"
status 0; prints ""; there "$folder/p.html"

begin "a page of a refused sheet"
run "./pairs --page r.html $bad"
status 1; prints "$refused"; tells "$(words "$bad")${line}pairs: r.html is not written$line"
absent "$tree/r.html"

begin "a page of a refused sheet, where there is one already"
run "./pairs --page p.html $bad"
status 1; prints "$refused"; tells_of "pairs: p.html is not written; what is there is older"

cp "$tree/$burnt" "$tree/mine.sheet"
cp "$tree/$burnt" "$tree/mine"
ln -s mine "$tree/mine.html"
for words in "mine.sheet $burnt" "mine.sheet mine.sheet" "new.sheet $burnt" "mine mine" "mine.html mine"; do
    begin "no page over a sheet: $words"
    run "./pairs --page $words"
    status 2; prints ""; tells_of "a page is not written over a sheet"
    cmp -s "$tree/$burnt" "$tree/mine.sheet" && cmp -s "$tree/$burnt" "$tree/mine" || fault "a sheet is lost"
    absent "$tree/new.sheet"
done

begin "a page where there is one already, behind a link"
echo old >"$tree/old.html"
ln -s old.html "$tree/link.html"
run "./pairs --page link.html $burnt"
status 0
[ -L "$tree/link.html" ] || fault "the link is replaced"
grep -qF "$burnt" "$tree/old.html" || fault "the page is not where the link leads"

begin "a page written again keeps its leave"
chmod 640 "$tree/old.html"
run "./pairs --page old.html $burnt"
status 0
[ "$(stat -c %a "$tree/old.html")" = 640 ] || fault "its mode is $(stat -c %a "$tree/old.html")"

ln -s nothing.html "$tree/dangling.html"
for place in nowhere/p.html empty /dev/null dangling.html; do
    begin "no page can be written to $place"
    run "./pairs --page $place $burnt"
    status 3; prints ""; tells_of "cannot write $place"
done
[ -c /dev/null ] || fault "/dev/null is replaced"

begin "a page of a sheet that is missing"
run "./pairs --page m.html nothing.sheet"
status 2; prints ""; tells_of "there is no file nothing.sheet"
absent "$tree/m.html"

begin "no half pages are left"
run "find . -name '*.part'"
prints ""

parts=$((parts + 1))
