# What the guides show of pairs: below an indented line with a dollar stand the first lines that come, answer and words.
# shellcheck shell=bash disable=SC2154,SC2034

examples=0
for guide in README.md docs/OPERATING.md; do
    command=''
    while IFS= read -r shown; do
        case $shown in
            '    $ '*)
                command=${shown#*$ }
                examples=$((examples + 1))
                begin "$guide: $command"
                run "{ $command; } 2>&1"
                at=0
                ;;
            '    '*)
                [ -n "$command" ] || continue
                at=$((at + 1))
                [ "$(sed -n "${at}p" "$out")" = "${shown#    }" ] || fault "line $at is not '${shown#    }'"
                ;;
            *) command='' ;;
        esac
    done <"$root/$guide"
done
[ "$examples" -gt 0 ] || fault "the guides show nothing"

parts=$((parts + 1))
