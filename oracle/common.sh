# shellcheck shell=sh disable=SC2034,SC2154
# Shared by oracle/compare, oracle/second and oracle/record: what they install and build.
# Sourced with $top set to the repository's top.

room=$top/target/oracle
mkdir -p "$room"

die() {
    echo "${0##*/}: $*" >&2
    exit 2
}

has_package() {
    dpkg-query -W -f '${Status}' "$1" 2>/dev/null | grep -q 'ok installed'
}

as_root() {
    if [ "$(id -u)" = 0 ]; then "$@"; else sudo "$@"; fi
}

# Installs the Debian packages that are not there yet.
install_packages() {
    missing=
    for package in "$@"; do
        has_package "$package" || missing="$missing $package"
    done
    [ -n "$missing" ] || return 0
    echo "installing$missing" >&2
    # shellcheck disable=SC2086
    { as_root apt-get update && as_root env DEBIAN_FRONTEND=noninteractive apt-get install -y --no-install-recommends $missing; } \
        >"$room/install.log" 2>&1 </dev/null || die "cannot install$missing (target/oracle/install.log says why)"
}

# Fetches a package without installing it. Package lists that are missing or old are
# brought up to date first.
download_package() { # NAME FOLDER
    echo "fetching $1" >&2
    (cd "$2" && { apt-get download "$1" || { as_root apt-get update && apt-get download "$1"; }; }) \
        >"$room/install.log" 2>&1 || die "cannot fetch $1 (target/oracle/install.log says why)"
}

# The crate's div_ceil and this harness want Rust 1.74. Debian's plain rustc is older
# than that, its rustc-web is not.
rust_is_new() {
    command -v cargo >/dev/null && rustc --version 2>/dev/null |
        awk '{ split($2, v, "."); exit !(v[1] > 1 || v[2] >= 74) }'
}

install_rust() {
    rust_is_new || install_packages cargo-web rustc-web
    rust_is_new || die "no Rust of 1.74 or newer"
}

# Builds the harness with the crate's files as they are. They are copies: `rt` refuses links in a repository.
build_harness() { # FOLDER OF THE CRATE
    install_packages librust-paste-dev
    install_rust
    files=$1/src
    build=$room/build
    rm -rf "$build/src" "$build/given"
    mkdir -p "$build/given"
    cp "$top/oracle/harness/Cargo.toml" "$build/"
    cp -R "$top/oracle/harness/src" "$build/src"
    cp "$top/oracle/harness/given/lib.rs" "$build/given/"
    for part in bitreader.rs color.rs macros.rs etc.rs etc bcn; do
        cp -R "$files/$part" "$build/given/"
    done
    registry=$(dpkg -L librust-paste-dev | grep '/registry$')
    (cd "$build" && cargo build --release --offline --quiet \
        --config 'source.crates-io.replace-with="debian"' \
        --config "source.debian.directory=\"$registry\"") || die "the harness does not build"
    harness=$build/target/release/oracle
}

# Builds the programs that make Mesa, Android's libETC1 and libsquish speak the protocol. Mesa's other
# driver, llvmpipe, rounds the thirds, fifths and sevenths of S3TC otherwise.
build_decoders() {
    GALLIUM_DRIVER=softpipe
    export GALLIUM_DRIVER
    install_packages gcc libc6-dev libegl1 libegl-mesa0 libgles2 libgl1-mesa-dri libegl-dev libgles-dev \
        android-libetc1-dev g++ libsquish-dev python3-pil
    gcc -O2 -o "$room/mesa" "$top/oracle/mesa.c" -lEGL -lGLESv2 -lm || die "mesa.c does not build"
    header=$(dpkg -L android-libetc1-dev | grep '/ETC1/etc1\.h$')
    library=$(dpkg -L android-libetc1-dev | grep '/libETC1\.so$')
    gcc -O2 -I "${header%/ETC1/etc1.h}" -o "$room/android" "$top/oracle/android.c" \
        "$library" -Wl,-rpath,"${library%/*}" || die "android.c does not build"
    g++ -O2 -o "$room/squish" "$top/oracle/squish.cpp" -lsquish || die "squish.cpp does not build"
}

# The example pictures as Debian's nvcompress encodes them, in BC1 without and with alpha and in BC3, and Godot in BC7.
encode_pictures() {
    install_packages libnvtt-bin godot3-server
    desktop=$room/desktop
    rm -rf "$desktop" && mkdir -p "$desktop"
    for picture in "$top"/examples/*.png; do
        for format in bc1 bc1a bc3; do
            nvcompress "-$format" -nomips "$picture" "$desktop/$(basename "$picture" .png)-$format.dds" >"$room/nvcompress.log" 2>&1 ||
                die "nvcompress fails (target/oracle/nvcompress.log says why)"
        done
        # Godot keeps logs in the folder that it is run in
        (cd "$room" && HOME=$room godot3-server --no-window -s "$top/oracle/encode.gd" "$picture" \
            "$desktop/$(basename "$picture" .png)-bc7.dds") >"$room/godot.log" 2>&1 ||
            die "godot3-server fails (target/oracle/godot.log says why)"
    done
}

# piglit takes 2 GB where it is installed, and 18 small files of it are wanted: those
# are taken out of its package.
fetch_pictures() {
    pictures=$room/pictures
    [ ! -d "$pictures" ] || return 0
    rm -rf "$room/piglit" && mkdir -p "$room/piglit/files"
    download_package piglit "$room/piglit"
    dpkg-deb --fsys-tarfile "$room"/piglit/piglit_*.deb |
        tar -x -C "$room/piglit/files" --transform 's,.*/,,' --wildcards \
            '*/gles-3.0/waffles-*.ktx' '*/oes_compressed_etc1_rgb8_texture/waffles-*.ktx' ||
        die "piglit has no such pictures"
    mv "$room/piglit/files" "$pictures"
}

# Proves and builds the Rattle program, which `rt run` also runs, here on an empty input. Its stored list is the
# gate's: a program that differs from it is compared all the same, since then above all one wants to know where.
build_program() { # NAME OF THE PROGRAM'S CRATE
    echo "proving $1 and what it is made of: some minutes from nothing" >&2
    [ -d "$top/crates/$1" ] || die "there is no crate $1"
    (cd "$top/crates/$1" && rt run) </dev/null >"$room/rt.log" 2>&1 || :
    grep -q "^rt: running out/$1" "$room/rt.log" || die "$1 is not proved (target/oracle/rt.log says why)"
    program=$room/program
    cp "$top/crates/$1/out/$1" "$program"
}

# The names of the differences that are listed, with commas between them.
listed() {
    [ -f "$top/docs/DIFFERENCES.md" ] || return 0
    # shellcheck disable=SC2016
    sed -n 's/^##* `\([a-z0-9-]*\)`.*/\1/p' "$top/docs/DIFFERENCES.md" | paste -s -d , -
}

# Options of all three commands. ORACLE_CRATE and ORACLE_PROGRAM say the same as
# --crate and --program.
take_options() {
    seed=1 blocks=300000 source='' only='' day=$(date -u +%F)
    crate=${ORACLE_CRATE:-replay} program=${ORACLE_PROGRAM:-}
    while [ $# -gt 0 ]; do
        case $1 in
        --seed | --blocks | --source | --crate | --program | --date | --only) [ $# -gt 1 ] || die "$1 wants a value" ;;
        *) die "unknown option $1" ;;
        esac
        case $1 in
        --seed) seed=$2 ;;
        --blocks) blocks=$2 ;;
        --source) source=$2 ;;
        --date) day=$2 ;;
        --only) only=$2 ;;
        --crate) crate=$2 ;;
        --program) program=$2 ;;
        esac
        shift 2
    done
    source=$(sh "$top/oracle/crate" ${source:+"$source"}) || exit 2
}

prepare() {
    build_harness "$source"
    [ -n "$program" ] || build_program "$crate"
    echo "seed $seed" >&2
}
