# shellcheck shell=sh
# Shared by oracle/older and bench/run, which set $top to the repository's top.

# The manifest of a package that is built elsewhere, with the whole path of bindings/rust. It is no link: `rt` refuses links in a repository.
with_bindings() { # FILE
    TOP=$(printf '%s' "$top" | sed 's/[\\"]/\\&/g') awk '
        /^yalivucu = / { print "yalivucu = { path = \"" ENVIRON["TOP"] "/bindings/rust\" }"; next }
        { print }' "$1"
}
