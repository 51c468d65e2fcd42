# What ./mark and ./convert share: a sheet that is written as text, as bytes, and a program that is built where it isn't there. It is sourced with `root`, the
# top of the checkout. A file holds words of eight hexadecimal digits, apart by blanks or line ends; '#' starts a comment.

# Takes the arguments of the script: one file that can be read and holds nothing but words. Exits with 2 or 1 else.
take_file() {
    if [ $# -ne 1 ]; then
        echo "usage: $0 FILE.hex" >&2
        exit 2
    fi
    file=$1
    if [ ! -f "$file" ] || [ ! -r "$file" ]; then
        echo "$0: $file: no such file, or it can't be read" >&2
        exit 2
    fi
    wrong=$(words | LC_ALL=C awk 'length($2) != 8 || $2 ~ /[^0-9a-f]/ { print; exit }')
    if [ -n "$wrong" ]; then
        echo "$0: $file, line ${wrong%% *}: not a word of eight hexadecimal digits: ${wrong#* }" >&2
        exit 1
    fi
}

# The words, one a line.
words() {
    LC_ALL=C tr '\r' ' ' <"$file" | LC_ALL=C awk '{ sub(/#.*/, ""); for (i = 1; i <= NF; i++) print NR, tolower($i) }'
}

# The bytes of the sheet. A word is four bytes, each written as an octal escape.
bytes() {
    words | LC_ALL=C awk '
        function octal(pair) {
            return sprintf("\\0%03o", 16 * index(digits, substr(pair, 1, 1)) + index(digits, substr(pair, 2, 1)) - 17)
        }
        BEGIN { digits = "0123456789abcdef" }
        { print octal(substr($2, 1, 2)) octal(substr($2, 3, 2)) octal(substr($2, 5, 2)) octal(substr($2, 7, 2)) }
    ' | while IFS= read -r word; do
        printf '%b' "$word"
    done
}

# Builds a program where it isn't there, and sets `program` to its path.
build() {
    program=$root/crates/$1/out/$1
    if [ ! -x "$program" ]; then
        echo "$0: building $1; this takes some minutes, once" >&2
        # `rt run` proves and builds it, and runs it once, here on no input
        (cd "$root/crates/$1" && rt run </dev/null >/dev/null) >&2 || true
        if [ ! -x "$program" ]; then
            echo "$0: $1 can't be built" >&2
            exit 1
        fi
    fi
}
