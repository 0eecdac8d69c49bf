# The checks of a script, which sources this from the repository's root: one line each, and a last line that counts them;
# and how it starts programs.
passed=0 failed=0

# How many seconds a program may take, a compiler, a script of checks, a proof. On a slow machine too each takes a small
# part of this: what is not over by then hangs.
program_limit=60 compiler_limit=600 script_limit=1200 proof_limit=3600

# A check has no redirection of its own: where its file is not there, bash would pass over the check, and nothing would
# count it. The command opens its files itself, by `from` or in a function.
check() { # NAME COMMAND...
    if "${@:2}"; then
        echo "ok      $1"
        passed=$((passed + 1))
    else
        echo "FAILED  $1"
        failed=$((failed + 1))
    fi
}

# The last line, and the end. A script that has checked nothing has not passed.
finish() {
    echo "$passed passed, $failed failed"
    [ "$failed" -eq 0 ] && [ "$passed" -gt 0 ]
    exit
}

# A command with a file as its input.
from() { # FILE COMMAND...
    "${@:2}" <"$1"
}

# A command that is ended where it hangs: the status is then 124, or 137 where it had to be killed.
within() { # SECONDS COMMAND...
    local status
    timeout --kill-after=5 "$1" "${@:2}"
    status=$?
    if [ "$status" -eq 124 ] || [ "$status" -eq 137 ]; then
        echo "        ${*:2} did not end within $1 s" >&2
    fi
    return "$status"
}

# One of the proved programs, of what is piped in.
run() { # PROGRAM
    within "$program_limit" "target/bin/$1"
}

# Of what is piped in the program prints this file, and has the status 0.
prints() { # PROGRAM TEXT
    run "$1" | diff - "$2"
}
