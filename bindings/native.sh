# What bindings/archive does besides proving: it reads this file in, which uses its `top`, `work` and `folder`.

# The libraries that a crate names in crates.txt.
uses() { # NAME
    NAME=$1 awk '
        { sub(/#.*/, "") }
        /:/ { name = $1; sub(/:.*/, "", name); if (name == ENVIRON["NAME"]) print substr($0, index($0, ":") + 1) }' "$folder/crates.txt"
}

# The crates that one is made of, each after those that it needs, and itself.
parts() { # NAME
    NAME=$1 awk '
        function visit(name,    part, n, k) {
            if (name in seen || !(name in needs)) return
            seen[name] = 1
            n = split(needs[name], part, " ")
            for (k = 1; k <= n; k++) visit(part[k])
            print name
        }
        { sub(/#.*/, "") }
        /:/ { name = $1; sub(/:.*/, "", name); needs[name] = substr($0, index($0, ":") + 1) }
        END { visit(ENVIRON["NAME"]) }' "$folder/crates.txt"
}

# A folder to build in: one that is empty or new, or that was made so before. In any other, somebody's files could be removed.
claimed() { # FOLDER
    mkdir -p "$1" || return
    [ ! -e "$1/.yalivucu" ] || return 0
    if [ -n "$(ls -A "$1")" ]; then
        echo "$1 holds other files; name a folder that is empty, or new" >&2
        return 1
    fi
    : >"$1/.yalivucu"
}

# A copy, in such a folder, of the crates that the library is made of. What `rt` kept in out/ of an earlier copy stays.
copied() {
    cp "$top/crates.txt" "$folder/crates.new"
    chmod u+w "$folder/crates.new"
    mv -f "$folder/crates.new" "$folder/crates.txt"
    list=$(parts capi)
    for crate in "$folder"/crates/*; do
        [ ! -d "$crate" ] || echo "$list" | grep -qx "$(basename "$crate")" || rm -rf "$crate"
    done
    for crate in $list; do
        mkdir -p "$folder/crates/$crate"
        for part in src specs proofs; do
            rm -rf "$folder/crates/$crate/$part"
            [ ! -d "$top/crates/$crate/$part" ] || cp -R "$top/crates/$crate/$part" "$folder/crates/$crate/$part"
            [ ! -d "$folder/crates/$crate/$part" ] || chmod -R u+w "$folder/crates/$crate/$part"
        done
    done
    LIST=$list awk '
        BEGIN { n = split(ENVIRON["LIST"], name, "\n"); for (k = 1; k <= n; k++) is_part[name[k]] = 1 }
        { own = $1; sub(/:.*/, "", own) }
        own in is_part' "$top/crates.txt" >"$folder/crates.txt"
}

# Links to all that stands in a folder, but for one name.
links() { # FROM TO EXCEPT
    mkdir -p "$2"
    for file in "$1"/*; do
        [ "$(basename "$file")" = "$3" ] || ln -s "$file" "$2/"
    done
}

# The proved module that the kit hands to clang, as $work/module.bc, and the words that it hands along, one a line, as $work/words. The kit
# builds the library once more, over what its check kept, with a clang that keeps a copy of both.
module_of() { # KIT
    clang=$work/toolchain/bin/clang
    links "$1/toolchain" "$work/toolchain" bin && links "$1/toolchain/bin" "$work/toolchain/bin" clang || return
    cat >"$clang" <<END && chmod +x "$clang" || return
#!/bin/sh
for word in "\$@"; do case \$word in *.bc) cp "\$word" "$work/module.bc" && printf '%s\n' "\$@" >"$work/words" ;; esac; done
exec "$1/toolchain/bin/clang" "\$@"
END
    kit=$1
    set -- build --crate-name capi src/lib.rt --crate-type staticlib --links capi= --extern "std=$kit/rlibs/std.rlib" -L "dependency=$kit/rlibs"
    for name in $(uses capi); do set -- "$@" --extern "$name=$folder/crates/$name/out/rlib/$name.rlib"; done
    for name in $(parts capi | grep -vx capi); do set -- "$@" -L "dependency=$folder/crates/$name/out/rlib"; done
    set -- "$@" --antt-project "$kit/rattle/logic/antt-project.json" --logic-built "$kit/logic_built" --incremental out/incremental
    (cd "$folder/crates/capi" && "$kit/bin/rattle" "$@" --backend llvm --toolchain "$work/toolchain" -o "$work/lib.a") && [ -s "$work/module.bc" ]
}

# Compiles the kept module for a target, with those of the kit's own words that concern LLVM's passes. LLVM stops inlining where a function
# grows past a cost; a block that stays in registers takes half the time of one that is handed on in memory, so the limit is raised. Readers
# are not inlined into their C wrappers: inlined, RGBA8 took a tenth more time on a Neoverse-V1 (docs/PERFORMANCE.md).
native_object() { # TOOLS OBJECT TARGET FLAG..
    clang="$1/clang --no-default-config -Wno-override-module -O3 -x ir"
    object=$2
    target=$3
    shift 3
    case $target in *-windows-*) ;; *) set -- -fPIC "$@" ;; esac
    own=
    case $target in x86_64-*) own=1 ;; esac
    passes=$(awk -v own="$own" '/^-mllvm$/ { getline; if (own || $0 !~ /x86/) print "-mllvm " $0 }' "$work/words")
    $clang --target=x86_64-unknown-linux-gnu -S -emit-llvm -Xclang -disable-llvm-passes "$work/module.bc" -o "$work/proved.ll" &&
        sed -e '/^target datalayout/d' -e '/^target triple/d' \
            -e 's/ "target-cpu"="[^"]*"//' -e 's/ "target-features"="[^"]*"//' \
            -e 's/ "probe-stack"="[^"]*"//' -e 's/ "stack-probe-size"="[^"]*"//' \
            -e 's/^\(define internal .*@"capi::yalivucu_[a-z0-9_]*"(.*)\) #0 {/\1 noinline #0 {/' "$work/proved.ll" >"$work/native.ll" &&
        $clang --target="$target" -mllvm -inline-threshold=10000 $passes "$@" \
            -ffunction-sections -fdata-sections -c "$work/native.ll" -o "$object"
}
