# What the packages of tools/package have in common. A script reads it by `.`, after it has set `top` and `stop`.

# When the commit was made, in seconds, and by whom: `git archive` puts both in place of this format
# (.gitattributes).
archived='$Format:%ct %an <%ae>$'

commit=$archived
case $commit in
    [0-9]*) ;;
    *)
        commit=$(git -C "$top" log -1 --format='%ct %an <%ae>') ||
            stop 'neither a history nor an archive of one: when and by whom it was made is unknown'
        ;;
esac
SOURCE_DATE_EPOCH=${commit%% *}
export SOURCE_DATE_EPOCH
maintainer=${commit#* }
architecture=$(dpkg --print-architecture)
stated_version=$(sed -n 's/^## //p' "$top/CHANGELOG.md" | head -n 1)

# libc_version FILE..: the greatest version of libc's symbols that the files need. They may need libc alone.
libc_version() {
    objdump -p "$@" > "$stage.headers"
    more=$(awk '$1 == "NEEDED" && $2 != "libc.so.6" { print $2 }' "$stage.headers" | sort -u)
    versions=$(awk '/^Version References:/ { wanted = 1; next } !NF { wanted = 0 }
        wanted && !/required from/ { print $NF }' "$stage.headers" | sort -u -V)
    rm "$stage.headers"
    [ -z "$more" ] || stop "$more is needed beside libc"
    newest=$(printf '%s\n' "$versions" | tail -n 1)
    unknown=$(printf '%s\n' "$versions" | sed '/^GLIBC_[0-9.]*$/d')
    [ -n "$newest" ] && [ -z "$unknown" ] || stop "no version of libc is known for: $versions"
    printf '%s\n' "${newest#GLIBC_}"
}

# documents PACKAGE WHAT: Debian's changelog and copyright of a package below $stage.
documents() {
    mkdir -p "$stage/usr/share/doc/$1" "$stage/DEBIAN"
    {
        printf '%s (%s) unstable; urgency=medium\n' "$1" "$stated_version"
        awk '/^## / { if (seen++) exit; next } seen' "$top/CHANGELOG.md" | fmt -w 75 |
            awk 'BEGIN { RS = "" } { gsub(/\n/, "\n    "); print "\n  * " $0 }'
        printf '\n -- %s  %s\n' "$maintainer" "$(date -R -u -d "@$SOURCE_DATE_EPOCH")"
    } | gzip -9n > "$stage/usr/share/doc/$1/changelog.gz"
    cat > "$stage/usr/share/doc/$1/copyright" << END
$2

Copyright: $(date -u -d "@$SOURCE_DATE_EPOCH" +%Y) $maintainer

No licence is chosen yet, so none is stated here: ask the above before you pass this package on.
END
}

# package PACKAGE ARCHITECTURE < MORE: makes the package of $stage in $into and prints its path. Standard input has the fields of its
# control file from Depends on.
package() {
    {
        printf 'Package: %s\nVersion: %s\nArchitecture: %s\nMaintainer: %s\n' "$1" "$stated_version" "$2" "$maintainer"
        printf 'Installed-Size: %s\n' "$(du -k -s --apparent-size "$stage/usr" | cut -f1)"
        cat
    } > "$stage/DEBIAN/control"
    (cd "$stage" && find usr -type f -print0 | sort -z | xargs -0 md5sum > DEBIAN/md5sums)
    made=$into/$1_${stated_version}_$2.deb
    dpkg-deb --root-owner-group -Zxz --build "$stage" "$made" > "$stage.log" 2>&1 ||
        { cat "$stage.log" >&2; rm "$stage.log"; stop 'dpkg-deb failed'; }
    rm "$stage.log"
    printf '%s\n' "$made"
}
