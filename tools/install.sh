#!/usr/bin/env bash
# Puts the built program, its companion, its manual page and completions under a prefix, or takes them out again.
#
# usage: tools/install.sh [--prefix FOLDER] [--remove]      (the prefix is /usr/local where none is named)
set -eu
cd "$(dirname "$0")/.."
prefix=/usr/local
remove=no
while [ $# -gt 0 ]; do
    case $1 in
        --prefix) prefix=${2:?--prefix wants a folder}; shift 2 ;;
        --remove) remove=yes; shift ;;
        *) sed -n '2,4s/^# //p' "$0"; exit 1 ;;
    esac
done

program=crates/fffuu/out/fffuu
page=$prefix/share/man/man1/fffuu.1
package=$prefix/share/fffuu/fffuu_view
bash_words=$prefix/share/bash-completion/completions
zsh_words=$prefix/share/zsh/site-functions
fish_words=$prefix/share/fish/vendor_completions.d

if [ $remove = yes ]; then
    rm -f "$prefix/bin/fffuu" "$prefix/bin/fffuu-view" "$page" "$bash_words/fffuu" "$bash_words/fffuu-view" "$zsh_words/_fffuu" \
        "$zsh_words/_fffuu-view" "$fish_words/fffuu.fish" "$fish_words/fffuu-view.fish"
    rm -rf "$package"
    rmdir "$prefix/share/fffuu" 2>/dev/null || true
    echo "fffuu is taken out of $prefix"
    exit 0
fi

if [ ! -x $program ]; then
    echo "$program isn't there: ./run check < samples/router.rules proves and builds it" >&2
    exit 1
fi
version=$(git describe --tags --always --dirty 2>/dev/null || echo unknown)
day=$(git log -1 --format=%cs 2>/dev/null || date +%F)
install -D -m 755 $program "$prefix/bin/fffuu"
install -d "$(dirname "$page")"
sed -e "s/@VERSION@/$version/" -e "s/@DATE@/$day/" docs/fffuu.1 > "$page"
install -D -m 755 tools/fffuu-view "$prefix/bin/fffuu-view"
install -D -m 644 -t "$package" tools/fffuu_view/*.py
install -D -m 644 -t "$package/schema" tools/fffuu_view/schema/*.json
echo "$version" > "$package/VERSION"
for name in fffuu fffuu-view; do
    install -D -m 644 tools/completions/$name.bash "$bash_words/$name"
    install -D -m 644 tools/completions/_$name "$zsh_words/_$name"
    install -D -m 644 tools/completions/$name.fish "$fish_words/$name.fish"
done
echo "fffuu $version is in $prefix"
