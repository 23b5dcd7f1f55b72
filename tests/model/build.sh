# Functions that build the models and programs over them; to be sourced.

# The folder of the models.
models=$(cd -- "$(dirname -- "${BASH_SOURCE[0]}")" && pwd)

# build_models FOLDER: the crate of the models, as FOLDER/libmodel.rlib.
build_models() {
    mkdir -p "$1"
    rustc -O --edition 2021 --crate-type rlib --crate-name model \
        -o "$1/libmodel.rlib" "$models/src/lib.rs"
}

# build_program FOLDER NAME SOURCE [LIBRARY]: a program over the models in
# FOLDER, as FOLDER/NAME, linked with the static library.
# A library without std brings a panic handler; the program's own then stands,
# so that a panic in the library is reported and ends the run.
build_program() {
    local link=()
    if [ $# -gt 3 ]; then
        link=(-C link-arg="$4" -C link-arg=-Wl,--allow-multiple-definition)
    fi
    rustc -O --edition 2021 --extern "model=$1/libmodel.rlib" "${link[@]}" \
        -o "$1/$2" "$3"
}

# build_stub SOURCES LIBRARY: the models of the folder SOURCES behind the
# names of the library's functions, as a static library.
build_stub() {
    rustc -O --edition 2021 --crate-type staticlib --crate-name stub -o "$2" "$1/stub.rs"
}

# wrong_stub FOLDER FILE OLD NEW: a stub from models in which the one place of
# FILE that reads OLD reads NEW, as FOLDER/libwrong.a.
wrong_stub() {
    mkdir -p "$1/src"
    cp -r "$models/src/." "$1/src/"
    local text rest
    text=$(<"$models/src/$2")
    rest=${text#*"$3"}
    if [ "$rest" = "$text" ] || [ "${rest#*"$3"}" != "$rest" ]; then
        echo "not exactly one place in $2: $3" >&2
        exit 2
    fi
    printf '%s\n' "${text%%"$3"*}$4$rest" >"$1/src/$2"
    build_stub "$1/src" "$1/libwrong.a" 2>"$1/build" || {
        cat "$1/build" >&2
        exit 2
    }
}
