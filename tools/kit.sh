# Sourced by the scripts (bash, with pipefail), from the repository's folder: proving with the Rattle kit, and how the C programs are built.
# What needs the kit asks for it; the rest works without.

say() { printf 'tupahineka: %s\n' "$*" >&2; }

kit_needed=rattle-kit-13
kit_found=

# Stops where the kit is not here, or is another one.
need_kit() {
    [ -z "$kit_found" ] || return 0
    if ! command -v rt >/dev/null 2>&1; then
        say "the Rattle kit's command 'rt' is not on PATH; install the kit and try again"
        exit 1
    fi
    case "$(rt version)" in
    "$kit_needed"*) kit_found=1 ;;
    *)
        say "this project needs $kit_needed; 'rt version' says: $(rt version)"
        exit 1
        ;;
    esac
}

# The crates that a crate reaches and then itself. In crates.txt each crate stands below those that it cites, so one pass from the end
# finds them.
reached() { # CRATE
    sed -e 's/#.*//' -e 's/ staticlib *:/:/' crates.txt | tac | awk -F '[: ]+' -v from="$1" '
        BEGIN { wanted[from] }
        NF && $1 in wanted { print $1; for (i = 2; i <= NF; i++) wanted[$i] }' | tac
}

# Reads what rt says, and tells on standard error which of these crates is being proved and how long that took. Of one that rt has from an
# earlier time it tells nothing.
tell() { # CRATES..
    local line name began='' crates=("$@") k
    while read -r line; do
        case $line in
        'rt: chose --jobs '*)
            name=${line##* } began=$SECONDS
            for ((k = 1; k <= $#; k++)); do
                [ "${crates[k - 1]}" != "$name" ] || printf 'tupahineka: proving %s (%s of %s) ..' "$name" "$k" "$#"
            done
            ;;
        logic=proved*)
            [ -z "$began" ] || echo " $((SECONDS - began)) s"
            began=
            ;;
        esac
    done >&2
    [ -z "$began" ] || echo >&2
}

# Has rt prove a crate, with all that it reaches, and build it: of a program crates/NAME/out/NAME, of a static library
# crates/NAME/out/libNAME.a. What has not changed is not proved again. What rt says is shown only where it fails. A program is run once too, on no
# input. With TUP_BUILT=1 `rt ci` has just passed, and has left every program in its place.
prove() { # run|lib CRATE
    local folder=crates/$2
    if [ "${TUP_BUILT:-}" = 1 ] && [ "$1" = run ] && [ -x "$folder/out/$2" ]; then return; fi
    need_kit
    mkdir -p target
    # shellcheck disable=SC2046
    if ! (cd "$folder" && PYTHONUNBUFFERED=1 rt "$1" </dev/null 2>&1) | tee target/said | tell $(reached "$2"); then
        # how a program ends on no input says nothing
        [ "$1" = run ] && grep -q "^rt: running out/$2;" target/said || {
            cat target/said >&2
            exit 1
        }
    fi
}

# The compiler for C programs over the proved archive, or nothing where there is none.
c_compiler() { command -v "${CC:-cc}"; }

# Stops where there is no C compiler.
need_c() {
    c_compiler >/dev/null || {
        say "no C compiler (\$CC or cc) for the demo, the second program and the measure; TUP_WITHOUT_C=1 lets the tests pass without them"
        exit 1
    }
}

# Builds a C program over the proved archive.
build_c() { # PROGRAM SOURCES..
    need_c
    local out=$1
    shift
    mkdir -p "$(dirname "$out")"
    "$(c_compiler)" -std=c11 -O3 -Wall -Wextra -Iinclude "$@" -Lcrates/panel/out -lpanel -lm -o "$out"
}

# Stops where the measure beside MiniSat cannot be built.
need_peer() {
    if ! command -v "${CXX:-c++}" >/dev/null || ! command -v "${CC:-cc}" >/dev/null; then
        say "no C++ compiler (\$CXX or c++) with its C compiler (\$CC or cc) for the measure beside MiniSat"
        exit 1
    fi
    if ! echo '#include <minisat/core/Solver.h>' | "${CXX:-c++}" -x c++ -fsyntax-only - 2>/dev/null; then
        say "no MiniSat for the measure beside it: its header minisat/core/Solver.h and its library are wanted (Debian's package minisat has both)"
        exit 1
    fi
}

# Builds the measure beside MiniSat.
build_peer() { # PROGRAM PANEL SOURCE.cc SOURCES.c..
    local out=$1 panel=$2 main=$3
    shift 3
    rm -rf "$out.parts" && mkdir -p "$out.parts"
    for source in "$@"; do
        "${CC:-cc}" -std=c11 -O3 -Wall -Wextra -Iinclude -c "$source" -o "$out.parts/$(basename "$source" .c).o"
    done
    "${CXX:-c++}" -O3 -Wall -Wextra -Iinclude "$main" "$out.parts"/*.o "$panel" -lminisat -o "$out"
}
