# Sourced by the scripts that put a real repository into edend. They set `work`.

# Sets `repository`, `from` and `to`: the repository that REPOSITORY names with the commits that FROM and TO name, or one that is made of files
# of this machine.
make_repository() {
    repository=${REPOSITORY:-}
    if [ -z "$repository" ]; then
        repository=$work/repository
        fill_repository > "$work/filled" 2>&1 || { cat "$work/filled" >&2; fail "no repository could be made"; }
    fi
    from=$(git -C "$repository" rev-parse --verify "${FROM:-HEAD~1}^{commit}") || fail "${FROM:-HEAD~1} is no commit of $repository"
    to=$(git -C "$repository" rev-parse --verify "${TO:-HEAD}^{commit}") || fail "${TO:-HEAD} is no commit of $repository"
}

# Commits all that the repository's folder holds.
commit_all() {
    git -C "$repository" add -A
    git -C "$repository" -c user.name=a -c user.email=a@a commit -q -m "$1"
}

fill_repository() {
    git init -q "$repository"
    find /usr/share /usr/lib /usr/include -xdev -type f -readable -size -8192k 2> /dev/null | LC_ALL=C sort | awk 'NR % 3 == 1' | head -n 12000 > "$work/files" || true
    [ "$(wc -l < "$work/files")" -ge 10000 ] || { echo "fewer than 10,000 files below /usr"; return 1; }
    tar -c -f - -T "$work/files" 2> /dev/null | tar -x -f - -C "$repository"
    # Of the sizes on both sides of a read, and the largest.
    for bytes in 0 1 65535 65536 65537 8388607 8388608; do head -c "$bytes" /dev/urandom > "$repository/$bytes bytes"; done
    ln -s '8388608 bytes' "$repository/link"
    commit_all one

    git -C "$repository" mv usr moved
    find "$repository/moved" -type f | LC_ALL=C sort > "$work/files"
    awk 'NR % 40 == 0' "$work/files" | tr '\n' '\0' | xargs -0 rm
    awk 'NR % 40 == 20' "$work/files" | while read -r file; do echo changed >> "$file"; done
    awk 'NR % 40 == 30' "$work/files" | tr '\n' '\0' | xargs -0 chmod u+x
    rm "$repository/8388607 bytes"
    mkdir "$repository/8388607 bytes" "$repository/"$'line\nfeed'
    echo below > "$repository/8388607 bytes/below"
    printf 'back\\slash' > "$repository/"$'line\nfeed/back\\slash'
    commit_all two
}
