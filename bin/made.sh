# For bin/gate, bin/build_program, bin/build_c and bin/build_js, which set `name` and `root`. What they build is kept in out/
# under a sum of the sources and of the kit, so what was built from others is never found. Status 3: it failed.
# shellcheck shell=sh disable=SC2086,SC2154

. "$root/bin/at_end.sh"

# The libraries that the programs and the C functions need, lowest first.
libraries='speedate_base speedate_civil speedate'
# The programs.
programs='speedate_lines speedate'

# crate_of PROGRAM: prints the crate of a program.
crate_of() {
    case $1 in
    speedate) echo speedate_cli ;;
    *) echo "$1" ;;
    esac
}

# own_libraries PROGRAM: prints the other libraries that a program needs, lowest first.
own_libraries() {
    case $1 in
    speedate) echo speedate_stream speedate_scan speedate_commands speedate_sort ;;
    *) echo speedate_stream ;;
    esac
}

say() {
    echo "$name: $1" >&2
}

fail() {
    say "$1"
    exit 3
}

# read_options WITH_VALUE WITHOUT ARGUMENT..: sets the variable of each option to its value, or to `yes` if the option has no
# value. The variable of an option that is not given is empty. -h and --help print the usage.
read_options() {
    with_value=$1 without=$2
    shift 2
    for it in $with_value $without; do eval "$it="; done
    while [ $# -gt 0 ]; do
        case $1 in
        -h | --help)
            show_usage
            exit 0
            ;;
        --?*=*)
            it=$1 && shift
            set -- "${it%%=*}" "${it#*=}" "$@"
            ;;
        esac
        words=
        for it in $without; do [ "$1" != "--$it" ] || { words=1 && eval "$it=yes"; }; done
        for it in $with_value; do [ "$1" != "--$it" ] || { words=2 && eval "$it=\${2-}"; }; done
        [ -n "$words" ] || fail "there is no option $1; $(show_usage | sed -n 1p)"
        [ $words = 1 ] || [ -n "${2-}" ] || fail "$1 has no value; $(show_usage | sed -n 1p)"
        shift $words
    done
}

# Sets `version` to the version with which CHANGELOG.md begins.
read_version() {
    version=$(sed -n '/^## /{s///p;q;}' "$root/CHANGELOG.md")
    case $version in
    *[!0-9.]* | .* | *..* | *. | *.*.*.*) ;;
    *.*.*) return ;;
    esac
    fail "CHANGELOG.md begins with no version, but with $version"
}

# Prints the seconds since 1970 of SOURCE_DATE_EPOCH, or of the last commit, or nothing.
show_date() { printf '%s' "${SOURCE_DATE_EPOCH-$(git -C "$root" log -1 --format=%ct 2>/dev/null)}"; }

# build_in FOLDER ARGUMENT..: continues in a build folder, so that nothing is written beside these sources. It copies them
# there, with the C library that was built from them, and then runs the same script there, with these arguments.
build_in() {
    build=$(mkdir -p "$1" && readlink -f "$1") || fail "the folder $1 cannot be made"
    shift
    [ "$build" != "$root" ] || return 0
    [ -f "$build/.build" ] || [ -z "$(ls -A "$build")" ] || fail "$build is not empty, and is no build folder"
    # An earlier copy may have sources that are gone.
    for it in "$root"/*; do
        [ ! -d "$build/${it##*/}" ] || find "$build/${it##*/}" -name out -prune -o -type f -exec rm -f {} +
    done
    mkdir -p "$build/out" && true >"$build/.build" && (cd "$root" && tar cf - --exclude=out --exclude=target --exclude=.git --exclude=".${build#"$root"}" .) |
        tar xf - -C "$build" --mode=u+w || fail "the sources cannot be copied to $build"
    for it in "$root"/out/speedate_c-*; do
        [ ! -f "$it" ] || cp "$it" "$build/out" || fail "$it cannot be copied"
    done
    date=$(show_date)
    [ -z "$date" ] || export SOURCE_DATE_EPOCH="$date"
    exec "$build/bin/$name" "$@"
}

# Sets `kit`, the folder of the kit.
find_kit() {
    kit=$(readlink -f "$(command -v rt)") || fail 'rt, the command of the Rattle kit, is not on the PATH'
    kit=${kit%/bin/rt}
}

# Prints what identifies the kit.
show_kit() {
    find_kit
    # KIT-ID has what `rt version` prints. Just running rt would take longer than a sum.
    cat "$kit/KIT-ID" 2>/dev/null || rt version </dev/null || fail 'rt version failed'
}

# sum_by KIT CRATE..: prints one sum of all that these crates are made from: their sources, whatever their dates are, and the
# kit that show_kit has printed. Other crates are not part of it.
sum_by() {
    identity=$1
    shift
    sources=$(cd "$root/crates" && find ../crates.txt "$@" \( -name out -o -name must-fail \) -prune -o \
        -type f -exec sha256sum {} +) || fail 'the sources cannot be read'
    inputs=$(printf '%s\n' "$identity" "$sources" | LC_ALL=C sort) || fail 'sort failed'
    sum=$(printf '%s\n' "$inputs" | sha256sum) || fail 'sha256sum failed'
    echo "${sum%% *}"
}

# sum_of CRATE..: prints the same for the kit on the PATH.
sum_of() {
    by=$(show_kit) || exit 3
    sum_by "$by" "$@"
}

# keep FILE NAME: keeps a file in out/ under a name with a sum after its last hyphen. The copy gets this name when it is
# complete. Files with the same name but another sum are removed.
keep() {
    kept=$root/out/$2
    cp "$1" "$kept.$$" && mv "$kept.$$" "$kept" || return
    for older in "${kept%-*}"-*; do
        case $older in "$kept"*) ;; *) rm -f "$older" ;; esac
    done
}

# put FILE PLACE MODE: installs a file, whatever the umask is. The copy gets its name when it is complete.
put() {
    (umask 022 && mkdir -p "${2%/*}") || fail "the folder ${2%/*} cannot be made"
    cp "$1" "$2.$$" && chmod "$3" "$2.$$" && mv "$2.$$" "$2" || fail "$2 cannot be written"
}

# make_once FILE COMMAND..: runs a command that makes a file of out/, if the file is not there. If two scripts need it at
# the same time, the second waits, and finds what the first has made. Without flock the second makes it again after the
# first, because only one rt at a time can work in a crate.
make_once() {
    [ ! -f "$1" ] || return 0
    mkdir -p "$root/out" || fail 'the folder out cannot be made'
    (
        if command -v flock >/dev/null && ! flock -n 9; then
            say 'waiting for the build of another run'
            flock 9 || fail 'flock failed'
        fi
        [ ! -f "$1" ] || exit 0
        shift
        "$@"
    ) 9<"$root/bin" || exit 3
}

# say_crate CRATE CRATE..: says that the first one is being proved, and its place among the others.
say_crate() {
    crate=$1 at=0 place=0
    shift
    for it in "$@"; do
        at=$((at + 1))
        [ "$it" != "$crate" ] || place=$at
    done
    say "proving $crate ($place of $at)"
}

# show_progress CRATE..: passes on the lines of a build, says which crate is being proved, and on a terminal also how far it is.
show_progress() {
    while IFS= read -r line; do
        printf '%s\n' "$line"
        case $line in
        'rt: chose '*) say_crate "${line##* }" "$@" ;;
        'so far: '*) [ ! -t 2 ] || echo "    ${line#so far: }" >&2 ;;
        'rt: '*waiting*) say "${line#rt: }" ;;
        esac
    done
}

# prove CRATE COMMAND..: runs a command that proves a crate and builds it, in its folder. The output goes to a log, and to
# standard error if the command failed.
prove() {
    top=$1 log=$root/out/$1.log
    shift
    # Otherwise the log of an earlier run could be read in its place.
    true >"$log" || fail "$log cannot be written"
    {
        (cd "$root/crates/$top" && "$@") </dev/null 2>&1
        echo "ended with status $?"
    } | show_progress $libraries "$top" >"$log"
    [ "$(tail -n 1 "$log")" = 'ended with status 0' ] || {
        cat "$log" >&2
        return 1
    }
}

# over_libraries COMMAND..: builds the libraries, lowest first, and then runs a command of rt in the folder of a crate above
# them. If one of them is missing, rt itself would look through the sources of all of them before it proves any. A library
# starts beside the one before it once all that it uses is built, if there are processors and memory for both.
over_libraries() {
    built=' ' beside=' ' groups= copies=
    find_kit
    at_end 'for it in $groups; do kill -TERM "-$it"; done 2>/dev/null; rm -rf "$copies"'
    for it in $libraries; do
        count_jobs
        for other in $libraries; do
            [ $jobs -lt 4 ] || [ "$other" = "$it" ] || ! is_ready "$other" || ! is_shared || build_beside "$other"
        done
        (cd "../$it" && rt lib) || return
        built="$built$it "
    done
    "$@"
}

# is_ready CRATE: whether all libraries that a library uses are built, and it is not.
is_ready() {
    case $built$beside in *" $1 "*) return 1 ;; esac
    for need in $(sed -n "s/^$1: //p" "$root/crates.txt"); do
        case " $libraries " in *" $need "*) ;; *) continue ;; esac
        case $built in *" $need "*) ;; *) return 1 ;; esac
    done
}

# Whether rt takes here what it has built in a copy. Otherwise the copy would only build all again.
is_shared() { [ -w "${kit%/*}/rattle-kept/work" ]; }

# build_beside CRATE: starts to build a library in a copy, because only one rt at a time can work in a crate and in those
# below it. rt takes there what it has built here, and here it waits for what it builds there.
build_beside() {
    beside="$beside$1 "
    [ -n "$copies" ] || copies=$(mktemp -d) || fail 'there is no folder for temporary files'
    echo "rt: chose a copy for $1"
    setsid sh -c 'mkdir "$2" && cd "$1" && tar cf - --exclude=out crates crates.txt HANDLES | tar xf - -C "$2" &&
        cd "$2/crates/$3" && exec rt lib --jobs 2' '' "$root" "$copies/$1" "$1" >/dev/null 2>&1 </dev/null &
    groups="$groups $!"
}

# Sets `cpu`, the flags with which the C functions are built for every processor of a target. For x86-64 the kit would otherwise
# use instructions that some processors lack, and no call of a library asks which processor it runs on.
find_cpu() {
    case $triple in
    x86_64-*) cpu='--cpu x86-64' ;;
    *) cpu= ;;
    esac
}

# build_archive TRIPLE: leaves the static library of these sources and this kit in out/, and sets `archive` to its path.
# Without a kit it uses the library of these sources that is there, whichever kit built it.
build_archive() {
    triple=$1
    if ! command -v rt >/dev/null && find_archive; then
        return
    fi
    archive_sum=$(sum_of $libraries speedate_c) || exit 3
    archive=$root/out/speedate_c-$triple-$archive_sum.a
    make_once "$archive" make_archive
    [ -f "$archive.kit" ] || show_kit | put /dev/stdin "$archive.kit" 644
}

# Sets `archive` to the static library of these sources. A file beside it names the kit that built it.
find_archive() {
    for it in "$root/out/speedate_c-$triple"-*.a.kit; do
        archive=${it%.kit}
        by=$(cat "$it" 2>/dev/null) && archive_sum=$(sum_by "$by" $libraries speedate_c) && [ -f "$archive" ] &&
            [ "$archive" = "$root/out/speedate_c-$triple-$archive_sum.a" ] && return
    done
    false
}

make_archive() {
    find_kit
    find_cpu
    libraries_sum=$(sum_of $libraries) || exit 3
    gate=$root/out/libraries-$libraries_sum.tar
    made=$(mktemp -d) || fail 'there is no folder for temporary files'
    at_end 'rm -rf "$made"'
    if [ -f "$gate" ]; then
        tar xf "$gate" -C "$made" || fail "$gate cannot be unpacked: remove it"
        say_crate speedate_c $libraries speedate_c
        prove speedate_c build_over_gate || fail 'the library was not built'
    else
        say 'proving and building, which can take long the first time'
        prove speedate_c build_from_sources || fail 'the library was not built'
    fi
    sum_now=$(sum_of $libraries speedate_c) || exit 3
    [ "$sum_now" = "$archive_sum" ] || fail 'the sources changed while they were proved: start it again'
    keep "$made/libspeedate.a" "${archive##*/}" || fail 'the library cannot be kept'
}

build_from_sources() {
    # The libraries of all targets have the same name, so each one is copied right away.
    over_libraries rt lib --target "$triple" $cpu && cp out/libspeedate_c.a "$made/libspeedate.a"
}

# Proves and builds only the C functions, with the libraries that the gate proved.
build_over_gate() {
    set --
    for it in std $(sed -n 's/^speedate_c .*: //p' "$root/crates.txt"); do
        folder=$kit/rlibs
        [ ! -d "$root/crates/$it" ] || folder=$made
        set -- "$@" --extern "$it=$folder/$it.rlib"
    done
    set -- build --crate-name speedate_c src/lib.rt --crate-type staticlib --target "$triple" $cpu "$@" \
        -L "dependency=$kit/rlibs" -L "dependency=$made" --antt-project "$kit/rattle/logic/antt-project.json" \
        --logic-built "$kit/logic_built" --incremental "$root/out/incremental" --links speedate_c= \
        --toolchain "$kit/toolchain" --backend llvm -o "$made/libspeedate.a"
    count_jobs
    "$kit/bin/rattle" "$@" --jobs $jobs || {
        # It was killed, most likely because memory ran out.
        [ $? = 137 ] && "$kit/bin/rattle" "$@" --jobs 1
    }
}

# Sets `jobs` to the number of processors for which 2 GB each are free, but at most four.
count_jobs() {
    free=$(sed -n 's/^MemAvailable: *\([0-9]*\) kB$/\1/p' /proc/meminfo)
    processors=$(nproc)
    jobs=1
    while [ $jobs -lt 4 ] && [ $jobs -lt "$processors" ] && [ "$free" -gt $((2000000 * (jobs + 1))) ]; do
        jobs=$((jobs + 1))
    done
}
