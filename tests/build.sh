# How the outside tests are built, for scripts that source this after checks.sh. All of it goes under target/.
work=target/tests
library=target/staticlib/libfieldbook.a
mkdir -p "$work"

# The crates that the library and the programs stand on.
lower=(crates/powers crates/biomass crates/codec crates/line crates/rules crates/survey crates/console)

# Shows what a command writes only where it fails.
quietly() { # COMMAND...
    local log status
    log=$(mktemp "$work/log.XXXXXX") || return
    "$@" >"$log" 2>&1
    status=$?
    [ "$status" -eq 0 ] || cat "$log"
    rm -f "$log"
    return "$status"
}

# A step that no check can do without.
need() { # NAME COMMAND...
    quietly "${@:2}" || { echo "FAILED  $1" && return 1; }
}

# Building one of these proves its crate once more, so one that is newer than every file it is made of is kept.
stale() { # BUILT CRATE...
    [ ! -f "$1" ] || [ -n "$(find crates.txt "${@:2}" -name out -prune -o -type f -newer "$1" -print -quit)" ]
}

build_library() {
    ! stale "$library" "${lower[@]}" crates/fieldbook || need "the proved library" within "$proof_limit" ./build fieldbook
}

build_programs() { # PROGRAM...
    local program old=()
    for program; do
        if stale "target/bin/$program" "${lower[@]}" "crates/$program"; then old+=("$program"); fi
    done
    [ "${#old[@]}" -eq 0 ] || need "the proved programs" within "$proof_limit" ./build "${old[@]}"
}

cargo_in_work() { # COMMAND FOLDER ARGUMENT...
    within "$compiler_limit" env CARGO_TARGET_DIR="$PWD/$work" \
        cargo "$1" --offline --locked --manifest-path "$2/Cargo.toml" "${@:3}"
}

# The program `outside`, which then stands in the profile's folder.
build_outside() { # PROFILE
    need "the build of the outside tests" cargo_in_work build tests --profile "$1"
}
