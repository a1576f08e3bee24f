# shellcheck shell=bash
# Sourced by what builds the test programs of this folder, after tools/for-c.sh. `build_programs FOLDER LIBRARY WORDS..`
# compiles them into the folder against that library, with further words for the compiler; `programs` names them.
programs=(compare line header)

build_programs() {
    local folder=$1 library=$2 here=$house/tests/c
    local flags=(-O2 -Wall -Wextra -Werror -I "$house/include" -I "$here" "${@:3}")
    local model=(model model_cipher model_trivium model_enocoro model_triad model_pack model_link)
    local comparing=(compare compare_cipher compare_pack compare_link compare_records compare_transfers
        calls faults lend link_input options random vectors)
    local lining=(line line_ends options random)

    # build PROGRAM NAME..: a program of the C files of those names and the library
    build() {
        local program=$1 files
        shift
        files=("${@/#/$here/}")
        quietly "$cc" -std=c11 "${flags[@]}" -o "$folder/$program" "${files[@]/%/.c}" "$library"
    }

    build compare "${comparing[@]}" "${model[@]}"
    build line "${lining[@]}"
    quietly "$cc" -std=c11 -pedantic "${flags[@]}" -c -o "$folder/header.o" "$here/header.c"
    quietly "$cxx" -pedantic "${flags[@]}" -o "$folder/header" "$here/header.cpp" "$library"
}
