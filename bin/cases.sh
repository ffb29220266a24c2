# For bin/test_builds and bin/test_speedate_lines: a clone with a kit that proves nothing, for each case.
# shellcheck shell=sh disable=SC2034,SC2154

here=$(readlink -f "$0")
here=${here%/bin/*}
. "$here/bin/at_end.sh"
all=$(mktemp -d) || exit 1
at_end 'rm -rf "$all"'
mkdir "$all/tools" "$all/sources"
for tool in cat chmod cp env find flock grep ln mkdir mktemp mv nproc readlink rm sed setsid sha256sum sleep sort sh tail tar \
    tee touch; do
    ln -s "$(command -v "$tool")" "$all/tools/$tool"
done
(cd "$here" && tar cf - --exclude=out bench/src bin c crates crates.txt docs tests CHANGELOG.md HANDLES LICENSE) |
    tar xf - -C "$all/sources"

# The manual page, with its commands as a shell takes them.
page() { sed 's/\\-/-/g; s/\\e/\\/g' "$here/bin/speedate_lines.1"; }

# Makes a clone and a kit. The kit's `rt run` reads all its input, does what the file `during` says, and makes a program that
# prints the file `mark`, its arguments and its input, and ends with the status $STATUS. Its `rt lib` makes a library of that
# file for a target, and so does its rattle, from libraries. Its `rt try` prints its folder, its arguments and its input. Its `rt ci` does what the file `during` says, and leaves the same
# program and libraries. The C compiler keeps its arguments, makes a file with the name of the last one, and
# names `true` as its ar.
prepare() {
    folder=$all/$1 clone="$all/$1/a clone" kit=$all/$1/kit
    mkdir -p "$kit/bin"
    cp -RP "$all/tools" "$folder/tools"
    cp -R "$all/sources" "$clone"
    path=$kit/bin:$folder/tools
    script=$clone/bin/speedate_lines
    mark=$clone/crates/speedate_base/src/mark
    echo one >"$mark"
    echo kit-1 >"$kit/version"
    : >"$kit/during"
    cat >"$kit/bin/rt" <<'END'
#!/bin/sh
kit=${0%/bin/rt}
echo "$*" >>"$kit/calls"
case $1 in
run | lib | ci) ;;
try)
    printf '%s\n' "${PWD##*/}" "$@" && cat
    printf '%s\n' 'what the program says' 'checked: ended status=4' "run=${TRIED-ended} status=4 runners=1 proved=no" >&2
    exit 4
    ;;
*) exec cat "$kit/version" ;;
esac
cat >>"$kit/taken"
[ "$1" != ci ] || rm -rf crates/*/out
# Just a library, which is built before what needs it.
case $* in
run\ *) made=${PWD##*/} ;;
lib | 'lib --jobs 2') made=${PWD##*/} ;;
lib\ *) made=speedate_c ;;
*) made='speedate_base speedate_civil speedate speedate_c' ;;
esac
for it in $made; do
    echo "rt: chose --jobs 1 for $it"
    echo 'so far: 1 of 2 functions checked'
done
case $* in
lib | 'lib --jobs 2')
    : >"$kit/began_$made"
    for it in $(cat "$kit/waits_$made" 2>/dev/null); do until [ -e "$kit/began_$it" ]; do sleep 0.1; done; done
    [ ! -e "$kit/fails_$made" ]
    exit
    ;;
esac
. "$kit/during"
crates=..
[ "$1" != ci ] || crates=crates
mark=$(cat "$crates/speedate_base/src/mark")
write_program() {
    mkdir -p "${1%/*}"
    printf '#!/bin/sh\necho "%s"\nfor it; do echo "[$it]"; done\ncat\nexit ${STATUS:-0}\n' "$mark" >"$1"
    chmod +x "$1"
}
case $1 in
run) write_program "out/${PWD##*/}" ;;
lib) mkdir -p out && echo "$mark for $3" >out/libspeedate_c.a ;;
ci)
    for it in speedate_lines speedate_cli; do write_program "crates/$it/out/$it"; done
    for it in speedate_base speedate_civil speedate; do
        mkdir -p "crates/$it/out/rlib/$it.rlib"
        echo "$mark" >"crates/$it/out/rlib/$it.rlib/format"
    done
    . "$kit/after"
    echo '4 passed, 0 failed'
    ;;
esac
END
    cat >"$kit/bin/rattle" <<'END'
#!/bin/sh
kit=${0%/bin/rattle}
echo rattle >>"$kit/calls"
[ -f src/lib.rt ] || exit
! rm "$kit/kills" 2>/dev/null || kill -KILL $$
while [ $# -gt 0 ]; do
    case $1:${2-} in
    --target:*) target=$2 ;;
    --extern:speedate=*) mark=$(cat "${2#*=}/format") ;;
    -L:dependency=*) [ ! -d "${2#*=}/speedate_base.rlib" ] || below=$(cat "${2#*=}/speedate_civil.rlib/format") ;;
    -o:*) [ "$below" = "$mark" ] && echo "$mark for $target" >"$2" ;;
    esac
    shift
done
END
    cat >"$kit/bin/cc" <<'END'
#!/bin/sh
case $* in *-print-prog-name=ar) echo true && exit ;; esac
printf '%s\n' "$@" >"${0%/bin/cc}/linked"
for last; do :; done
echo shared >"$last"
END
    : >"$kit/after"
    processors 1
    chmod +x "$kit/bin/rt" "$kit/bin/rattle" "$kit/bin/cc"
}

# From now on there are so many processors.
processors() { printf '#!/bin/sh\necho %s\n' "$1" >"$kit/bin/nproc" && chmod +x "$kit/bin/nproc"; }
lines() { env PATH="$path" "$script" 2>>"$folder/errors"; }
install() { env PATH="$path" "$clone/bin/build_program" --prefix "$1" 2>>"$folder/errors" </dev/null; }
# Prints the path where it installs the program that answers lines.
install_lines() { install "$1" | grep speedate_lines; }
install_c() { env PATH="$path" "$clone/bin/build_c" "$@" >"$folder/output" 2>>"$folder/errors" </dev/null; }
gate() { (cd / && env PATH="$path" "$clone/bin/gate" >"$folder/gate" 2>>"$folder/errors" </dev/null); }
# Prints the library for C of a target, as a script with `name` and `root` builds it.
archive() {
    env PATH="$path" sh -uc 'name=test root=$1 && . "$1/bin/made.sh" && build_archive "$2" && cat "$archive"' '' "$clone" \
        "${1-x86_64-unknown-linux-gnu}" 2>>"$folder/errors" </dev/null
}
prints() { [ "$(lines </dev/null)" = "$1" ]; }
builds() { [ "$(grep -c '^run' "$kit/calls")" = "$1" ]; }
# Tests how often the library for C was built with all that it needs, and how often with what the gate left.
builds_c() { [ "$(grep -c '^lib --target' "$kit/calls")" = "$1" ] && [ "$(grep -c '^rattle' "$kit/calls")" = "$2" ]; }
is_silent() { [ ! -s "$folder/errors" ]; }
building='proving and building, which can take long the first time
build_program: proving speedate_base (1 of 5)
build_program: proving speedate_civil (2 of 5)
build_program: proving speedate (3 of 5)
build_program: proving speedate_stream (4 of 5)
build_program: proving speedate_lines (5 of 5)'
# Tests that all runs so far said only this.
said() { [ "$(cat "$folder/errors")" = "build_program: $1" ]; }

# Tests that the script ends with 3, starts no program, and says the word.
refuses() {
    status=0
    lines </dev/null >"$folder/output" || status=$?
    [ $status = 3 ] && [ ! -s "$folder/output" ] && grep -q "$1" "$folder/errors"
}

# From now on the tool ends with status 1.
break_tool() { printf '#!/bin/sh\nexit 1\n' >"$kit/bin/$1" && chmod +x "$kit/bin/$1"; }

# Starts a first run, whose group of processes is $first, and waits until it builds, which lasts so many seconds, or one.
start_build() {
    echo "echo \$\$ >\"\$kit/building\"; sleep ${1-1}" >"$kit/during"
    setsid env PATH="$path" "$script" </dev/null >"$folder/first" 2>"$folder/first_errors" &
    first=$!
    until [ -s "$kit/building" ]; do kill -0 $first && sleep 0.1 || return; done
}

# run_cases FILE: runs each case of a script, whose functions begin with `test_`, and ends with status 1 if one failed. The script's
# function `missing_for CASE` prints what the case needs and this machine lacks. If `needs_all` has a word, such a case fails.
run_cases() {
    failures=0
    for case in $(sed -n 's/^test_\([a-z_]*\)().*/\1/p' "$1"); do
        missing=$(missing_for "$case")
        if [ -n "$missing" ]; then
            verdict=skipped
            [ -z "$needs_all" ] || verdict=failed failures=1
            echo "$verdict $case: there is no $missing"
            continue
        fi
        prepare "$case"
        if ("test_$case"); then echo "ok $case"; else echo "failed $case" && failures=1; fi
    done
    exit $failures
}
