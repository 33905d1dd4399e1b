# Files of Intel HEX, ours and those of others, each read and held to the lines that it is of: part of bench/run, which sources it.

line_bytes=8
bank_lines=8192

# Where the first byte of an export belongs, in hexadecimal: the plain bytes that objcopy makes of it do not say so.
first_address() {
    objdump -b ihex -h "$1" | awk '$2 == ".sec1" { print $4 }'
}

# Every export, read by an outside reader, has to be the lines of its board, from address 0 on; and both readers have to take it.
read_exports() {
    local export lines
    while read -r export lines; do
        if ! objcopy -I ihex -O binary "$export" "$export.read"; then
            echo "objcopy does not read $PWD/$export" >&2
            exit 1
        fi
        if ! [[ "$(first_address "$export")" =~ ^0+$ ]]; then
            echo "$PWD/$export does not begin at address 0, but at $(first_address "$export")" >&2
            exit 1
        fi
        if ! cmp "$export.read" "$lines" >&2; then
            echo "$PWD/$export is not what its board has: objcopy reads other bytes than those of $lines" >&2
            exit 1
        fi
        expect_all_read "$export" "$lines"
    done <list
}

# expect_read FILE BYTES SAID: both sides read a file into a board that is zero, up to the first record that is refused. SAID is how
# many they take, and the name of what ends it; the board's lines have to be the bytes of the second file then.
expect_read() {
    local file="$1" bytes="$2" said="$3" told
    told="$("$program" hex-in "$file" "$(($(stat -c %s "$bytes") / line_bytes))" "$file.board")"
    if [ "$told" != "$said" ]; then
        echo "$PWD/$file: expected is \`$said\`, and it is \`$told\`" >&2
        exit 1
    fi
    if ! cmp "$file.board" "$bytes" >&2; then
        echo "$PWD/$file: the board has other lines than $bytes" >&2
        exit 1
    fi
    files_read=$((files_read + 1))
}

# Every record is taken, its digits in upper case and in lower case.
expect_all_read() {
    expect_read "$1" "$2" "$(wc -l <"$1") ok"
    tr A-F a-f <"$1" >"$1.lower"
    expect_read "$1.lower" "$2" "$(wc -l <"$1") ok"
}

# write_by_objcopy BYTES FILE [OPTION..]: its lines end in CR LF. The line feeds alone are as `tr -d '\r'` makes them.
write_by_objcopy() {
    objcopy -I binary -O ihex "${@:3}" "$1" "$2.crlf"
    tr -d '\r' <"$2.crlf" >"$2"
}

# What objcopy writes has no opener for the first bank, and a type of record for later ones that is not read. Its start record, which
# it writes where the data, or the start, are not at 0, is not read either.
read_objcopy() {
    local lines more=$((bank_lines + 1))
    for lines in 1 2 3 $((bank_lines - 1)) $bank_lines; do
        write_by_objcopy "$lines.lines" "$lines.objcopy"
        expect_all_read "$lines.objcopy" "$lines.lines"
        truncate -s "$((line_bytes * lines))" "$lines.zero"
        expect_read "$lines.objcopy.crlf" "$lines.zero" "0 record"
    done
    # The record behind those of the first bank is of type 02.
    write_by_objcopy "$more.lines" second_bank.objcopy
    head -c "$((line_bytes * bank_lines))" "$more.lines" >first_bank.lines
    truncate -s "$((line_bytes * more))" first_bank.lines
    expect_read second_bank.objcopy first_bank.lines "$((bank_lines / 2)) record"
    # Two records, then the start record, of type 03 or 05.
    write_by_objcopy 3.lines start_03.objcopy --set-start=0x8
    expect_read start_03.objcopy 3.lines "2 record"
    write_by_objcopy 3.lines start_05.objcopy --set-start=0x100000
    expect_read start_05.objcopy 3.lines "2 record"
    # From the second line on: 16 bytes at an address that is 8 mod 16.
    write_by_objcopy 3.lines second_line.objcopy --change-addresses=0x8
    { head -c "$line_bytes" /dev/zero && cat 3.lines; } >second_line.lines
    expect_read second_line.objcopy second_line.lines "2 record"
    # From 1 MiB on objcopy writes type 04; no board has data there.
    write_by_objcopy 3.lines mebibyte.objcopy --change-addresses=0x100000
    expect_read mebibyte.objcopy 3.zero "1 outside"
}

# srec_cat writes an opener for each bank, and 32 bytes in a record unless it is told otherwise.
read_srec_cat() {
    local bytes
    if ! command -v srec_cat >/dev/null; then
        echo "bench/run: srec_cat is not there, so no file of its is read (Debian's package srecord)" >&2
        return
    fi
    for bytes in *[0-9].lines; do
        srec_cat "$bytes" -binary -o "$bytes.srec" -intel -output-block-size=16
        expect_all_read "$bytes.srec" "$bytes"
    done
    srec_cat "$bank_lines.lines" -binary -o wide.srec -intel
    expect_read wide.srec "$bank_lines.zero" "1 record"
}

run_hex() {
    local exports="$build/exports"
    files_read=0
    rm -rf "$exports"
    mkdir -p "$exports"
    "$program" hex "$exports" >"$exports/list"
    cd "$exports"
    read_exports
    read_objcopy
    read_srec_cat
    echo "$files_read files read, each as the board has it"
}
