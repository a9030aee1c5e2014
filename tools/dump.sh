#!/usr/bin/env bash
# dump.sh NAME FILE: an archive for print, as docs/FORMAT.md has it: 16 bytes a line, each line with its offset and its check figure, and a figure of the whole.
set -euo pipefail
name=$1
file=$2
od -An -v -tu1 -w16 "$file" | awk -v name="$name" '
    # The check figure with one byte more.
    function figure(before, byte) { return (before * 256 + byte) % 65521 }
    {
        offset = 16 * (NR - 1)
        line = offset
        text = ""
        for (i = 1; i <= NF; i++) {
            line = figure(line, $i)
            whole = figure(whole, $i)
            text = text sprintf(" %02X", $i)
        }
        size += NF
        lines = lines sprintf("%6d %-48s  %04X\n", offset, text, line)
    }
    END { printf "%s: %d bytes, check figure %04X\n%s", name, size, whole, lines }'
