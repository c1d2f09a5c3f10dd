#!/bin/sh
# Says whether the headers of bindings/include are C (C99 and C11) and C++ (C++11 and C++20) for each compiler that is there, without a warning. What is missing has a line.
set -eu
top=$(cd "$(dirname "$0")/.." && pwd)
failed=0

# What a program has of each header besides.
uses() {
    case $1 in
        *_easy.h) echo 'dv_easy easy = DV_EASY_INIT; dv_easy_close(&easy); return dv_text(0) == dv_refusal_text(1);' ;;
        *_requests.h) echo 'uint8_t room[9]; dv_bytes it = dv_built(room, dv_build_string(room, 9, dv_words("uname"))); return !it.len;' ;;
        *) echo 'dv_event event = DV_EVENT_INIT; dv_ask ask = DV_ASK_INIT; return (int)(event.kind + ask.kind);' ;;
    esac
}

# read_by LANGUAGE STANDARD COMPILER: one compiler reads each header alone, and twice.
read_by() {
    if ! command -v "$3" >/dev/null 2>&1; then
        echo "SKIPPED: the headers read by $3, for it is not there"
        return
    fi
    for header in "$top"/bindings/include/*.h; do
        printf '#include "%s"\n#include "%s"\nint main(void) { %s }\n' "$header" "$header" "$(uses "$header")" |
            "$3" -x "$1" "-std=$2" -Wall -Wextra -Wpedantic -Wconversion -Werror -fsyntax-only - || { echo "$3, $2: $header"; failed=1; }
    done
}
for compiler in gcc clang; do
    for standard in c99 c11; do read_by c "$standard" "$compiler"; done
done
for compiler in g++ clang++; do
    for standard in c++11 c++20; do read_by c++ "$standard" "$compiler"; done
done
exit "$failed"
