#!/bin/sh
# Runs the commands of docs/PICTURES.md, line by line, in one folder with a photo and files of sensor data made here.
# A line whose tools are not all installed is passed over, and so is a later line that fails; the tools that are missing are named.
# The line over several machines is run if HOSTS names them, for example HOSTS=one,two. The last line is `N passed, M failed`.
# usage: tests/picture_page.sh PROGRAM
. "$(dirname -- "$0")/lib.sh" && program=$(whole "$1") || exit 2
in_folder
PATH=/usr/bin:$PATH # other programs are called `convert` too
tools='convert mogrify jpegtopnm pamscale ppmtopgm pnmtopng pngtopnm ppmtorgb3 pnmsplit rgb3toppm pamarith pamsumm pamchannel pamtopnm pamdepth pnmtile python3 parallel rsync'
passed=0
missing=

# lacks LINE: a tool of the line is not installed
lacks() {
    status=1
    for tool in $tools; do
        case " $1 " in
        *[\ \|]"$tool"\ *)
            command -v "$tool" >/dev/null || {
                missing="$missing $tool"
                status=0
            }
            ;;
        esac
    done
    return $status
}

# is TEXT WORD..: a case, which holds where the command succeeds
is() {
    text=$1
    shift
    if "$@"; then
        passed=$((passed + 1))
    elif [ -n "$missing" ]; then
        echo "picture_page: passed over: $text"
    else
        failed=$((failed + 1))
        echo "picture_page: $text" >&2
    fi
}

# runs LINE
runs() {
    bash -o pipefail -c "$1" >stdout 2>stderr || {
        cat stdout stderr >&2
        return 1
    }
}

# numbers FIRST SECOND: 0 to 1023, 300 times, each as two bytes, which are these terms of k
numbers() {
    # shellcheck disable=SC2059
    printf "$(awk "BEGIN { for (k = 0; k < 1024; k++) printf \"\\\\%03o\\\\%03o\", $1, $2 }")" >numbers
    for _ in 1 2 3; do
        for _ in $(seq 100); do cat numbers; done
    done
}

cp "$program" dk && ln -s "$top/examples" "$top/tools" . && mkdir in out photos || exit 2
numbers 'k % 256' 'k / 256' >frame.raw
# a colour photo of three examples
scenes=$top/examples/programs
rgb3toppm "$scenes/scene.pgm" "$scenes/page.pgm" "$scenes/shapes.pgm" 2>/dev/null | pamscale 12 2>/dev/null | pnmtojpeg >photo.jpg 2>/dev/null
[ -s photo.jpg ] || { echo 'picture_page: netpbm is not installed, so there is no photo, and nothing was run'; echo '0 passed, 0 failed'; exit 0; }
for k in 1 2 3; do cp photo.jpg "photos/p$k.jpg"; done

# the programs of the page, then its commands
awk '/^.*As [a-z]+\.dk:$/ { name = $NF; sub(/:$/, "", name) } /^```/ { inside = !inside; next } inside && name { print >name }' "$top/docs/PICTURES.md"
grep '^    ' "$top/docs/PICTURES.md" | sed 's/^    //' >lines
while read -r line <&3; do
    case $line in
    *--sshlogin*)
        if [ -z "$HOSTS" ]; then
            echo 'picture_page: HOSTS is not set, and the line over several machines was passed over'
            continue
        fi
        line=$(printf '%s\n' "$line" | sed "s/one,two/$HOSTS/")
        ;;
    esac
    lacks "$line" || is "$line" runs "$line"
done 3<lines
{ printf 'P5\n640 480\n1023\n'; numbers 'k / 256' 'k % 256'; } >wanted.pgm
is 'frame.pgm does not have the bytes in the other order' cmp wanted.pgm frame.pgm
for tool in $tools; do
    case " $missing " in
    *" $tool "*) echo "picture_page: $tool is not installed" ;;
    esac
done
echo "$passed passed, $failed failed"
