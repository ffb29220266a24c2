# For bin/compare and bin/bench, which set `name` and `root`. It builds a Cargo project with the Rust crate speedate and the
# package of rust/. Status 3: something that it needs is missing.
# shellcheck shell=sh disable=SC2154

fail() {
    echo "$name: $1" >&2
    exit 3
}

# Where the library is installed, for rust/build.rs.
export SPEEDATE_DIR="$root/out/prefix"

# Installs the library if it is missing, or older than a source or than the header, which rust/build.rs compares.
build_library() {
    library=$SPEEDATE_DIR/lib/libspeedate.a
    newer=$(find "$root/crates/speedate_base/src" "$root/crates/speedate_civil/src" "$root/crates/speedate/src" \
        "$root/crates/speedate_c/src" "$root/c/speedate.h" "$root/c/speedate.c" -newer "$library" 2>/dev/null)
    if [ ! -f "$library" ] || [ -n "$newer" ]; then
        "$root/bin/build_c" --prefix "$SPEEDATE_DIR" >&2 || fail 'the library could not be built'
    fi
}

# copy_crate INTO: copies the sources of the crate, with the paths that they name. The copy gets another version than
# rust/Cargo.toml has, because cargo identifies packages in folders only by name and version.
copy_crate() {
    sources=$(readlink -f "$SPEEDATE_SOURCES")
    [ -f "$sources/Cargo.toml" ] || fail "SPEEDATE_SOURCES: $SPEEDATE_SOURCES has no Cargo.toml"
    rm -rf "$1" && mkdir -p "$1" && cp -R "$sources/." "$1" || fail "$1 cannot be written"
    sed -e 's/^version = "0\.18\.0"/version = "0.18.0+crate"/' -e "s|path = \"\.\./|path = \"${sources%/*}/|" \
        "$sources/Cargo.toml" >"$1/Cargo.toml"
}

# Where Debian's packages librust-*-dev put crates.
debian=${DEBIAN_CRATES:-/usr/share/cargo/registry}

# build FOLDER FLAG..: builds the project in a folder. The flags are for cargo.
build() {
    folder=$root/$1
    shift
    command -v cargo >/dev/null || fail 'cargo is not on the PATH'
    command -v cc >/dev/null || fail 'there is no C compiler (cc), by which cargo links'
    if [ -n "${SPEEDATE_SOURCES-}" ]; then
        copy_crate "$root/out/crate"
        set -- --offline --config "patch.crates-io.speedate.path=\"$root/out/crate\"" "$@"
        [ ! -d "$debian" ] ||
            set -- --config 'source.crates-io.replace-with="debian"' --config "source.debian.directory=\"$debian\"" "$@"
    fi
    build_library
    # This file was written for the crates of the last run, which may have come from elsewhere.
    rm -f "$folder/Cargo.lock"
    (cd "$folder" && cargo build -q --release --target-dir target "$@") ||
        fail 'cargo failed; where it cannot reach the crate, SPEEDATE_SOURCES may name a folder that has it'
}
