#!/bin/sh
# ./tray on good and bad calls: what it prints, says and leaves. Leaves 1 where one is not so.
set -u
cd "$(dirname "$0")/.." || exit 2
room=$(mktemp -d)
trap 'rm -rf "$room"' EXIT
tried=0
failed=0
tray=./tray         # the words that call it

# wrong WORDS..: the case at hand went wrong
wrong() {
    failed=$((failed + 1))
    printf 'FAILED launcher: %s\n' "$*"
}

# call WORDS..: one more call, with what it printed, what it said and the status it left
call() {
    tried=$((tried + 1))
    $tray "$@" >"$room/printed" 2>"$room/said"
    status=$?
}

# prints FILE WORDS..: ./tray WORDS prints the file, says nothing and leaves 0
prints() {
    wanted=$1
    shift
    call "$@"
    if [ "$status" -ne 0 ] || [ -s "$room/said" ] || ! cmp -s "$wanted" "$room/printed"; then
        wrong "tray $* left $status: $(cat "$room/said")"
    fi
}

# refuses PATTERN WORDS..: ./tray WORDS prints nothing, says one line of that pattern, leaves 2
refuses() {
    pattern=$1
    shift
    call "$@"
    if [ "$status" -ne 2 ] || [ -s "$room/printed" ] || [ "$(wc -l <"$room/said")" -ne 1 ] ||
        ! grep -q "^tray: .*$pattern" "$room/said"; then
        wrong "tray $* left $status: $(cat "$room/said")"
    fi
}

# refuses_text PATTERN TEXT: so does ./tray bytes on the text
refuses_text() {
    printf '%b' "$2" >"$room/text"
    refuses "$1" bytes "$room/text"
}

# bytes_are OCTAL TEXT: ./tray bytes turns the text into these bytes
bytes_are() {
    # shellcheck disable=SC2059 # the octal escapes are a format
    printf "$1" >"$room/bytes"
    printf '%b' "$2" >"$room/text"
    prints "$room/bytes" bytes "$room/text"
}

# ---- recordings
for name in tray eight skipped; do
    prints "examples/$name.lines" run "examples/$name.bin"
    prints "examples/$name.lines" run <"examples/$name.bin"
    prints "examples/$name.cells" cells "examples/$name.bin"
    prints "examples/$name.bin" bytes "examples/$name.txt"
    prints "examples/$name.bin" bytes <"examples/$name.txt"
done
for name in orders silent; do
    prints "examples/$name.lines" control "examples/$name.bin"
    prints "examples/$name.lines" control <"examples/$name.bin"
    prints "examples/$name.cells" control-cells "examples/$name.bin"
    prints "examples/$name.bin" bytes "examples/$name.txt"
done
prints examples/tray.lines example
echo 'END 0' >"$room/empty.lines"
prints "$room/empty.lines" run /dev/null
prints "$room/empty.lines" control /dev/null
echo '! 6 0' >"$room/other.lines"       # each kind of recording given to the other's program
prints "$room/other.lines" control examples/tray.bin
prints "$room/other.lines" run examples/orders.bin
refuses 'standard input is closed' run <&-
refuses 'standard input is closed' control <&-
cp examples/tray.bin "$room/a name of = - 3 words.bin"
prints examples/tray.lines run "$room/a name of = - 3 words.bin"

# ---- a call from another folder, and through a link: files are the caller's
tried=$((tried + 1))
ln -s "$PWD/tray" "$room/link"
(cd examples && "$room/link" run eight.bin) | cmp -s examples/eight.lines ||
    wrong "a call through a link"

# ---- the caller's variables change nothing
tried=$((tried + 1))
QEMU_STRACE=1 ./tray example 2>&1 | cmp -s examples/tray.lines || wrong "with QEMU_STRACE set"

# ---- nobody reads the lines
tried=$((tried + 1))
./tray run examples/eight.bin 2>"$room/said" | head -c 0
[ ! -s "$room/said" ] || wrong "with its output closed: $(cat "$room/said")"

# ---- help
tried=$((tried + 1))
for word in example run cells control control-cells bytes help; do
    ./tray help | grep -q "^./tray $word " || wrong "help is silent about $word"
done

# ---- bad calls
refuses 'help'
refuses 'walk is not a word' walk
refuses 'no such file' run "$room/missing"
refuses 'no such file' cells ''
refuses 'no such file' control "$room/missing"
refuses 'no such file' control-cells ''
refuses 'no such file' bytes "$room/missing"
refuses 'is a directory' run "$room"
refuses 'is a directory' bytes examples
refuses 'is a directory' run <examples
refuses 'is a directory' control "$room"
refuses 'one too many' run examples/tray.bin examples/tray.bin
refuses 'one too many' control-cells examples/orders.bin examples/orders.bin
refuses 'takes no file' example examples/tray.bin
if ! (PATH=/usr/bin:/bin && command -v rt) >/dev/null; then
    tray='env PATH=/usr/bin:/bin ./tray'
    refuses 'rt of the Rattle kit is not on the PATH' example
fi
cp tray examples/tray.bin "$room"
chmod 755 "$room"
chmod 000 "$room/tray.bin"
tray="sh $room/tray"
# root may read everything, so nobody asks for it
[ "$(id -u)" -ne 0 ] || tray="setpriv --reuid=65534 --regid=65534 --clear-groups $tray"
refuses 'cannot be read' run "$room/tray.bin"
tray=./tray

# ---- the first call proves and builds, later ones only where a source is newer; an rt that only
# ---- copies stands in for the kit's, in a repository of its own
mkdir -p "$room/bin" "$room/own/crates/some/src" "$room/own/examples"
for name in tray_run controller_run controller_cells; do mkdir "$room/own/crates/$name"; done
cp tray "$room/own"
cp examples/tray.bin "$room/own/examples"
touch "$room/own/crates.txt" "$room/own/crates/some/source" "$room/own/crates/some/src/gone"
cat >"$room/bin/rt" <<END_OF_RT
#!/bin/sh
mkdir -p out
cat >out/eaten
name=\$(basename "\$PWD")
echo "rt: \$* \$name" >&2
[ ! -e ../some/fault ] || exit 1
cp "$PWD/target/bin/\$name" out
END_OF_RT
chmod +x "$room/bin/rt"
tray="env PATH=$room/bin:$PATH $room/own/tray"

# builds FILE PROGRAM WORDS..: the file is printed once rt run was called for PROGRAM
builds() {
    wanted=$1
    program=$2
    shift 2
    call "$@"
    if ! cmp -s "$wanted" "$room/printed" || ! grep -q '^tray: proving' "$room/said" ||
        ! grep -q "^rt: run $program\$" "$room/said"; then
        wrong "tray $* that builds: $(cat "$room/said")"
    fi
}
builds examples/tray.lines tray_run run examples/tray.bin
prints examples/tray.lines example
prints examples/tray.lines run examples/tray.bin
builds examples/orders.lines controller_run control examples/orders.bin
builds examples/orders.cells controller_cells control-cells examples/orders.bin
prints examples/orders.lines control examples/orders.bin
touch "$room/own/crates/some/source"
builds examples/tray.lines tray_run run examples/tray.bin
prints examples/tray.lines example
builds examples/orders.lines controller_run control examples/orders.bin
rm "$room/own/crates/some/src/gone"
builds examples/tray.lines tray_run run examples/tray.bin
prints examples/tray.lines example
touch "$room/own/crates/some/fault"
call example
if [ "$status" -ne 2 ] || [ -s "$room/printed" ] ||
    ! grep -q '^tray: rt run of tray_run failed' "$room/said"; then
    wrong "a failed proof left $status: $(cat "$room/said")"
fi
tray=./tray

# ---- text
bytes_are '' ''
bytes_are '' '# nothing but a comment'
bytes_are '\000\012\177\200\377' '00 0A;7f\t80;\r\n\n;;FF # last'
bytes_are '\001\002\003' '010203'
bytes_are '\001' '01#02'
refuses_text 'line 1, column 1:' 'x'
refuses_text 'line 1, column 4:' '01 0'
refuses_text 'line 1, column 1:' '0 1'
refuses_text 'line 3, column 5:' '01 # x\n\n 02 0x03'
refuses_text 'line 2, column 1:' '01\n,'
refuses_text 'line 1, column 1:' '\0001\0003'

# ---- 10,000 bytes of text are quick
tried=$((tried + 1))
awk 'BEGIN { for (at = 0; at < 10000; at++) printf "%02x%s", at % 256, at % 99 ? " " : "\n" }' \
    >"$room/long"
began=$(date +%s)
size=$(./tray bytes "$room/long" | wc -c)
took=$(($(date +%s) - began))
if [ "$size" -ne 10000 ] || [ "$took" -gt 5 ]; then wrong "10,000 bytes: $size in $took s"; fi

echo "launcher: $((tried - failed)) of $tried calls"
[ "$failed" -eq 0 ]
