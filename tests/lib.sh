# What the scripts of this folder share. Each one begins with: . "$(dirname "$0")/lib.sh"
# It stands at the top of the repository afterwards, with $folder for its files, and ends with `finish`.
set -u
shopt -s lastpipe # what ends a pipeline counts here
cd "$(dirname "${BASH_SOURCE[0]}")/.." || exit 1
passed=0
failed=0
folder=$(mktemp -d) || exit 1
trap 'rm -rf "$folder"' EXIT

# program NAME: sets the variable NAME to the path of the built program, and builds it unless .ci/run says that it did
program() {
    [ -n "${PROGRAMS_ARE_BUILT:-}" ] || tools/build "$1" >&2 || exit 1
    [ -x "crates/$1/out/$1" ] || { echo "there is no crates/$1/out/$1"; exit 1; }
    printf -v "$1" '%s' "$PWD/crates/$1/out/$1"
}

# same NAME WHAT GOT WANT: counts one comparison, and shows both where they differ
same() {
    if [ "$3" = "$4" ]; then
        passed=$((passed + 1))
    else
        failed=$((failed + 1))
        printf '%s: %s is\n%.400s\nand should be\n%.400s\n' "$1" "$2" "$3" "$4"
    fi
}

# host WORD..: runs np_host for at most 20 seconds; leaves $status, $folder/out and $folder/err
host() {
    timeout 20 "$np_host" "$@" >"$folder/out" 2>"$folder/err" </dev/null
    status=$?
}

# expect NAME STATUS OUTPUT: what the last run of the host left
expect() {
    same "$1" 'the status and the output' "$status, $(tr -d '\0' <"$folder/out")" "$2, $3"
}

# bytes HEX..: writes the bytes of numbers in base 16; a word like 2048*61 writes them so many times
bytes() {
    local word text all=''
    for word in $*; do
        case $word in
        *'*'*) printf -v text '%*s' "${word%%\**}" '' && text=${text// /${word#*\*}} ;;
        *) text=$word ;;
        esac
        all=$all$text
    done
    printf "$(printf '%s' "$all" | sed 's/../\\x&/g')"
}

# hex FILE: the bytes of a file in base 16, without spaces
hex() { od -An -v -tx1 "$1" | tr -d ' \n'; }

# finish: the count of all comparisons; the script fails unless each of them held
finish() {
    echo "$passed passed, $failed failed"
    [ "$failed" = 0 ] && [ "$passed" -gt 0 ]
    exit
}
