#!/bin/sh
# Builds and runs every client over the library in a folder: as it is, under valgrind and under ThreadSanitizer, over the static
# and the shared library. Compares the table of refusals with that of coll_kinds, and all answers with docs/C.md.
# Tells each check; one that has no tool here is named as skipped. The last line is `N passed, N failed`.
# check.sh FOLDER [c|cpp|rust]..
set -u
command -v timeout > /dev/null || { echo "check.sh: there is no timeout, by which a check that hangs ends" >&2; exit 2; }
work=$(mktemp -d)
trap 'rm -rf -- "$work"' EXIT
trap 'leave 130' INT
trap 'leave 143' TERM HUP
# Words that hold several options are split at spaces, which the repository's path and the library's may have: they have other names here.
ln -s "$(dirname -- "$(dirname -- "$(readlink -f -- "$0")")")" "$work/top"
ln -s "$(readlink -f -- "$1")" "$work/lib"
here=$work/top/bindings
lib=$work/lib
shift
cc=${CC:-cc}
cxx=${CXX:-c++}
header="-I$here/../include"
warnings="-Wall -Wextra -Wpedantic -Werror -O2 -g"
c="$cc -std=c11 -D_GNU_SOURCE $warnings $header"
cplus="$cxx -std=c++17 $warnings $header"
static="$lib/libworzsunab.a -pthread"
shared="-L$lib -lworzsunab -pthread -Wl,-rpath,$lib"
# The combiner compiled with a client, as a sanitizer needs it and a test of its insides: the library's is left out then.
shim="-I$here/c/src $(echo "$here"/c/src/*.c)"
# No check takes more than a minute on an idle machine; one that takes an hour hangs.
limit="timeout 3600"
helgrind="valgrind --tool=helgrind -q --error-exitcode=9 --fair-sched=yes"
# What Helgrind doesn't check, because the library's own atomics order it.
blocks=$here/c/helgrind_blocks.c
allocating="-Wl,--wrap=wz_open,--wrap=rattle_alloc,--wrap=rattle_realloc"
passed=0
failed=0
under_way=

# Ends with a status, and the check that is under way too: `timeout` has a process group of its own.
leave() {
    [ -z "$under_way" ] || kill -s TERM -- "-$under_way" 2> /dev/null
    exit "$1"
}

has() {
    command -v "$1" > /dev/null
}

skip() {
    echo "skipped: $1: $2"
}

# Runs a check, and shows what it said where it failed. (A signal ends the shell's wait for a command beside it, and no other one.)
check() {
    name=$1
    shift
    $limit "$@" > "$work/said" 2>&1 < /dev/null &
    under_way=$!
    wait "$under_way"
    status=$?
    under_way=
    if [ "$status" -eq 0 ]; then
        passed=$((passed + 1))
        echo "passed: $name"
    else
        failed=$((failed + 1))
        cat "$work/said"
        echo "FAILED: $name (status $status)"
    fi
}

# Whether a program runs under ThreadSanitizer here. Where the kernel places memory at more places than the sanitizer knows, some runs fail, and
# others don't.
runs_often() {
    for _ in 1 2 3 4 5 6 7 8 9 10 11 12 13 14 15 16 17 18 19 20; do
        "$1" > /dev/null 2>&1 || return 1
    done
}

# Whether programs of a compiler do.
runs_threads_checked() {
    echo 'int main(void) { return 0; }' > "$work/empty.c"
    $1 -fsanitize=thread "$work/empty.c" -o "$work/empty" > /dev/null 2>&1 && runs_often "$work/empty"
}

# The clients, and what each is run with: a line for each run.
runs_of() {
    case $1 in
        threads) for ranks in 1 2 4 7; do echo "$ranks 200 quiet"; done ;;
        waits | calls) for ranks in 2 4 8; do echo "$ranks"; done ;;
        bounded) for ranks in 3 8; do echo "$ranks"; done ;;
        waiting) for ranks in 2 4; do echo "$ranks"; done ;;
        mixed) printf '%s\n' "2 200 1" "4 200 2" "8 100 3" ;;
        helped) printf '%s\n' "2 20 1" "4 20 2" "8 5 8" ;;
        lingering) for threads in 1 2 8; do echo "$threads"; done ;;
        *) echo ;;
    esac
}

# Builds a client in one way, and runs it.
try_client() {
    client=$1
    way=$2
    shift 2
    check "build $client, $way" "$@" -o "$work/$client.$way"
    [ -x "$work/$client.$way" ] || return
    runs_of "$client" > "$work/runs"
    while read -r words; do
        # shellcheck disable=SC2086
        check "$client${words:+ $words}, $way" "$work/$client.$way" $words
    done < "$work/runs"
}

# Whether a compiler is there, with the headers of its language.
compiles() {
    has "${2%% *}" && echo '#include <stdint.h>' | $2 -x "$1" -fsyntax-only - > /dev/null 2>&1
}

# Each header by itself, as C11 and as C++11, by each compiler that is there.
check_headers() {
    language=$1
    standard=$2
    shift 2
    for compiler in "$@"; do
        compiles "$language" "$compiler" || continue
        for file in "$here"/../include/*.h; do
            name=$(basename "$file")
            check "$name by itself, $standard, $compiler" sh -c \
                "echo '#include \"$name\"' | $compiler -std=$standard $warnings $header -x $language -fsyntax-only -"
        done
    done
}

# The table of refusals is that of coll_kinds, and docs/C.md has each answer.
check_tables() {
    [ -x "$work/refusals.static" ] || return
    "$work/refusals.static" table > "$work/table" < /dev/null
    sed -n 's/^ *Refusal::\([A-Za-z]*\)\( {.*}\)\{0,1\} => \([0-9]*\),$/\3 \1/p' "$here/../crates/coll_kinds/src/refusal.rt" > "$work/refusals.want"
    check "the table of refusals is that of coll_kinds" cmp "$work/table" "$work/refusals.want"
    "$work/refusals.static" answers > "$work/answers" < /dev/null
    grep '^| -\{0,1\}[0-9]\{1,2\} |' "$here/../docs/C.md" > "$work/answers.want"
    check "docs/C.md has each answer" cmp "$work/answers" "$work/answers.want"
}

# The shared library has the functions and the constant that the headers declare, and no other symbol.
check_symbols() {
    has nm || { skip "the shared library's symbols" "there is no nm"; return; }
    nm -D --defined-only "$lib/libworzsunab.so" | awk '{ print $3 }' | sort > "$work/symbols"
    { echo wz_proved; grep -oh '\bwz_[a-z0-9_]*(' "$here"/../include/*.h | tr -d '('; } | sort -u > "$work/declared"
    check "the shared library has just what the headers declare" cmp "$work/symbols" "$work/declared"
    check "what a client holds is a pointer" sh -c \
        "echo '#include \"worzsunab_threads.h\"
        int held[sizeof(wz_shared) == sizeof(void *) ? 1 : -1];' | $c -x c -fsyntax-only -"
}

check_c() {
    has "${cc%% *}" || { skip "C" "there is no $cc"; return; }
    checks_threads=
    ! runs_threads_checked "$cc" || checks_threads=yes
    [ "$checks_threads" ] || skip "C under ThreadSanitizer" "programs of $cc don't run under it here"
    for client in sum threads refusals cases each waits explained calls mixed; do
        # shellcheck disable=SC2086
        try_client $client static $c "$here/c/$client.c" $static
        # shellcheck disable=SC2086
        try_client $client shared $c "$here/c/$client.c" $shared
        # shellcheck disable=SC2086
        [ ! "$checks_threads" ] || try_client $client tsan $c -fsanitize=thread "$here/c/$client.c" $shim $static
    done
    # shellcheck disable=SC2086
    try_client left static $c "$here/c/left.c" $shim $static
    copying="-Wl,--wrap=wz_post -Wl,--wrap=wz_start -Wl,--wrap=wz_test"
    # shellcheck disable=SC2086
    try_client given static $c "$here/c/given.c" $static $copying
    # shellcheck disable=SC2086
    [ ! "$checks_threads" ] || try_client given tsan $c -fsanitize=thread "$here/c/given.c" $shim $static $copying
    # shellcheck disable=SC2086
    try_client memory static $c "$here/c/memory.c" $static -Wl,--wrap=malloc,--wrap=realloc,--wrap=calloc,--wrap=aligned_alloc,--wrap=free
    counted="-Wl,--wrap=wz_run_work -Wl,--wrap=wz_return_work -Wl,--wrap=wz_step -Wl,--wrap=wz_settle -Wl,--wrap=pthread_cond_wait"
    # shellcheck disable=SC2086
    try_client bounded static $c "$here/c/bounded.c" $shim $static $counted
    # shellcheck disable=SC2086
    [ ! "$checks_threads" ] || try_client bounded tsan $c -fsanitize=thread "$here/c/bounded.c" $shim $static $counted
    # shellcheck disable=SC2086
    try_client waiting static $c "$here/c/waiting.c" $shim $static -Wl,--wrap=sched_yield
    helping="-Wl,--wrap=wz_run_work -Wl,--wrap=pthread_create -Wl,--wrap=pthread_join"
    # shellcheck disable=SC2086
    try_client helped static $c "$here/c/helped.c" $shim $static $helping
    # shellcheck disable=SC2086
    [ ! "$checks_threads" ] || try_client helped tsan $c -fsanitize=thread "$here/c/helped.c" $shim $static $helping
    lingering="-DWZ_CREDIT=60000000000 -Wl,--wrap=nanoseconds,--wrap=let_time_pass,--wrap=sleep_at,--wrap=sched_yield,--wrap=wz_run_work"
    # shellcheck disable=SC2086
    try_client lingering static $c "$here/c/lingering.c" $shim $static $lingering
    # shellcheck disable=SC2086
    [ ! "$checks_threads" ] || try_client lingering tsan $c -fsanitize=thread "$here/c/lingering.c" $shim $static $lingering
    check_with_progress
    check_one_refusal
    check_helgrind
    check_headers c c11 "$cc" gcc clang
    check_tables
    check_symbols
    check_leaks refusals cases each given memory sum explained left "waits 3 5" "calls 3 2" "threads 4 20 quiet" "helped 3 3 2" "lingering 2"
}

# Clients whose engines have progress threads, which change nothing that a client sees.
check_with_progress() {
    opening="-Wl,--wrap=wz_shared_open -Wl,--wrap=wz_shared_open_world"
    for client in threads mixed waits calls explained sum; do
        for way in progress progress.tsan; do
            [ "$way" = progress ] || [ "$checks_threads" ] || continue
            flags=
            [ "$way" = progress ] || flags="-fsanitize=thread $shim"
            # shellcheck disable=SC2086
            check "build $client, $way" $c "$here/c/$client.c" "$here/c/with_progress.c" $flags $static $opening -o "$work/$client.$way"
            [ -x "$work/$client.$way" ] || continue
            runs_of "$client" > "$work/runs"
            while read -r words; do
                for threads in 0 1 2 8; do
                    # shellcheck disable=SC2086
                    check "$client${words:+ $words}, $way of $threads threads" env WITH_PROGRESS=$threads "$work/$client.$way" $words
                done
            done < "$work/runs"
        done
    done
}

# Where one rank's post is refused, the program ends, and the three others learn of it.
check_one_refusal() {
    # shellcheck disable=SC2086
    check "build sum with one refusal" $c "$here/c/sum.c" "$here/c/one_refusal.c" -Wl,--wrap=wz_post $static -o "$work/one_refusal"
    [ -x "$work/one_refusal" ] || return
    check "sum with one refusal ends, and all learn of it" sh -c \
        "timeout --foreground 3000 $work/one_refusal 2>&1 | sort | cut -c1-40 > $work/sentences; grep -c 'no wait can end' $work/sentences | grep -qx 3 && grep -q 'rank 2: there is no communicator 9' $work/sentences"
    # shellcheck disable=SC2086
    [ ! "$checks_threads" ] || try_client one_refusal tsan $c -fsanitize=thread "$here/c/sum.c" "$here/c/one_refusal.c" -Wl,--wrap=wz_post $shim $static
}

# Programs of 2 to 8 ranks under Helgrind, to which the combiner declares its atomics.
check_helgrind() {
    has valgrind || { skip "C under Helgrind" "there is no valgrind"; return; }
    echo '#include <valgrind/helgrind.h>' | $cc -x c -fsyntax-only - 2> /dev/null || { skip "C under Helgrind" "there is no valgrind/helgrind.h"; return; }
    for words in sum one_refusal explained given "waits 2 3" "waits 4 1" "calls 3 1" "calls 8 1" "mixed 2 10 1" "mixed 3 5 2" "threads 2 5 quiet" "threads 4 3 quiet" "bounded 2 1" "helped 2 2 1" "helped 3 2 2" "lingering 2"; do
        client=${words%% *}
        arguments=${words#"$client"}
        sources=$here/c/$client.c
        [ "$client" != bounded ] || sources="$sources $counted"
        [ "$client" != given ] || sources="$sources $copying"
        [ "$client" != helped ] || sources="$sources $helping"
        [ "$client" != lingering ] || sources="$sources $lingering"
        [ "$client" != one_refusal ] || sources="$sources $here/c/sum.c -Wl,--wrap=wz_post"
        # shellcheck disable=SC2086
        [ -x "$work/$client.helgrind" ] || check "build $client, helgrind" $c -DWZ_HELGRIND $sources "$blocks" $shim $static $allocating -o "$work/$client.helgrind"
        # shellcheck disable=SC2086
        check "$words, helgrind" $helgrind "$work/$client.helgrind" $arguments
    done
}

# Clients under valgrind, each with its words.
check_leaks() {
    has valgrind || { skip "C and C++ under valgrind" "there is no valgrind"; return; }
    for words in "$@"; do
        client=$work/${words%% *}.static
        arguments=${words#"${words%% *}"}
        # shellcheck disable=SC2086
        [ ! -x "$client" ] || check "$words, valgrind" valgrind -q --error-exitcode=9 --leak-check=full --errors-for-leak-kinds=all \
            --fair-sched=yes "$client" $arguments
    done
}

# The combiner's objects, compiled with these options, for programs of other languages. Prints their names.
shim_objects() {
    made=$work/shim.$1
    own=
    [ "$1" != helgrind ] || own=$blocks
    shift
    mkdir -p "$made"
    for source in "$here"/c/src/*.c $own; do
        # shellcheck disable=SC2086
        $c "$@" -fPIC -c "$source" -o "$made/$(basename "$source" .c).o" || return
    done
    echo "$made"/*.o
}

check_cpp() {
    has "${cxx%% *}" || { skip "C++" "there is no $cxx"; return; }
    # shellcheck disable=SC2086
    try_client cpp static $cplus "$here/cpp/sum.cpp" $static
    # shellcheck disable=SC2086
    try_client cpp shared $cplus "$here/cpp/sum.cpp" $shared
    if has valgrind && echo '#include <valgrind/helgrind.h>' | $cxx -x c++ -fsyntax-only - 2> /dev/null; then
        # shellcheck disable=SC2086
        check "build cpp, helgrind" $cplus "$here/cpp/sum.cpp" $(shim_objects helgrind -DWZ_HELGRIND) $static $allocating -o "$work/cpp.helgrind"
        # shellcheck disable=SC2086
        [ ! -x "$work/cpp.helgrind" ] || check "cpp, helgrind" $helgrind "$work/cpp.helgrind"
    fi
    if runs_threads_checked "${CC:-cc}"; then
        # shellcheck disable=SC2086
        try_client cpp tsan $cplus -fsanitize=thread "$here/cpp/sum.cpp" $(shim_objects tsan -fsanitize=thread) $static
    fi
    check_headers c++ c++11 "$cxx" g++ clang++
    check_leaks cpp
}

check_rust() {
    cargo --version > /dev/null 2>&1 || { skip "Rust" "there is no cargo that runs"; return; }
    cd "$here/rust" || exit 1
    export WORZSUNAB_LIB="$lib" CARGO_TARGET_DIR="$work/cargo"
    check "Rust: tests" cargo test --offline --quiet
    check "Rust: sums" cargo run --offline --quiet --example sums
    if has valgrind; then
        for test in "$work"/cargo/debug/deps/collectives-*; do
            case $test in
                *.d) ;;
                *) [ ! -x "$test" ] || check_rust_leaks "Rust: tests, valgrind" "$test" --test-threads=1 ;;
            esac
        done
        check_rust_leaks "Rust: sums, valgrind" "$work/cargo/debug/examples/sums"
    else
        skip "Rust under valgrind" "there is no valgrind"
    fi
    check_rust_threads
    cd "$here" || exit 1
}

check_rust_leaks() {
    name=$1
    shift
    check "$name" valgrind -q --error-exitcode=9 --leak-check=full --show-leak-kinds=definite --errors-for-leak-kinds=definite --fair-sched=yes "$@"
}

# The library with the combiner's instrumented objects in place of its own. What Rust's standard library, which isn't instrumented, does among its
# own functions is left out, and src/sanitizer.rs tells what it hides. The variable lets this compiler take the option, which is no stable one yet.
check_rust_threads() {
    host=$(rustc -vV | sed -n 's/^host: //p')
    export RUSTC_BOOTSTRAP=1 TSAN_OPTIONS="suppressions=$here/rust/tsan.suppressions"
    flags="-Zsanitizer=thread -Cunsafe-allow-abi-mismatch=sanitizer --cfg worzsunab_tsan"
    echo 'fn main() {}' > "$work/empty.rs"
    # shellcheck disable=SC2086
    if rustc $flags --target "$host" "$work/empty.rs" -o "$work/empty.rust" > /dev/null 2>&1 && runs_often "$work/empty.rust"; then
        export RUSTFLAGS="$flags" WORZSUNAB_LIB="$work/checked"
        instrument_library "$work/checked"
        check "build the library, tsan" test -e "$work/checked/libworzsunab.a"
        check "Rust: tests, tsan" cargo test --offline --quiet --target "$host" --test collectives -- --test-threads=1
        check "Rust: sums, tsan" cargo run --offline --quiet --target "$host" --example sums
    else
        skip "Rust under ThreadSanitizer" "programs of this rustc don't run under it here"
    fi
    unset RUSTC_BOOTSTRAP RUSTFLAGS TSAN_OPTIONS
    export WORZSUNAB_LIB="$lib"
}

instrument_library() {
    mkdir -p "$1" && cp "$lib/libworzsunab.a" "$1/part.a" || return
    objects=$(shim_objects tsan -fsanitize=thread) || return
    # shellcheck disable=SC2086
    ar d "$1/part.a" shim.o && ar qs "$1/part.a" $objects && mv "$1/part.a" "$1/libworzsunab.a"
}

for part in "${@:-all}"; do
    case $part in
        c) check_c ;;
        cpp) check_cpp ;;
        rust) check_rust ;;
        all)
            check_c
            check_cpp
            check_rust
            ;;
        *)
            echo "check.sh: FOLDER and c, cpp or rust are wanted, and not $part" >&2
            exit 2
            ;;
    esac
done
echo "$passed passed, $failed failed"
[ "$failed" -eq 0 ]
