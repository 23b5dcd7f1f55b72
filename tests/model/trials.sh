# Functions that try a program on wrong libraries: each is the models with one
# place changed, behind the library's names. To be sourced.
. "$(dirname -- "${BASH_SOURCE[0]}")/build.sh"

wrong=$models/../../target/wrong
missed=0

# trial FOLDER SOURCE NAME FILE OLD NEW PATTERN...: the program over the models
# in FOLDER, linked with the wrong library, must fail and say why, in a line
# that grep finds by the patterns.
trial() {
    wrong_stub "$wrong" "$4" "$5" "$6"
    build_program "$1" wrong "$2" "$wrong/libwrong.a"
    local why
    if "$1/wrong" >"$wrong/log" 2>&1; then
        echo "$3: NOT FOUND"
    elif why=$(grep -m 1 "${@:7}" "$wrong/log"); then
        echo "$3: $why"
        return
    else
        echo "$3: FAILED OTHERWISE: $(tail -n 1 "$wrong/log")"
    fi
    missed=$((missed + 1))
}

# summary: the number of those that were missed decides.
summary() {
    if [ "$missed" -ne 0 ]; then
        echo "$missed wrong libraries were not found"
        exit 1
    fi
    echo "all wrong libraries were found"
}
