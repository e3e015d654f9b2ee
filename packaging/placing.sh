#!/usr/bin/env bash
# Puts a tree of files in place, all or none, and takes it away again. `install` sources this, behind objects.sh.
#
# A file that is there goes aside to FILE$OLD before the new one, FILE$NEW, takes its place. The journal says what is to be undone, so
# that a call which was ended in the midst is undone by the next one: PLACING until all files are in place, and from then on PLACED,
# until those that went aside are gone.

: "${made:?a scratch folder}" "${root?the folder that is to be undone where a call fails}"
lock='' locked='' is_new=''
readonly OLD=.reamertan-old NEW=.reamertan-new LOCK=.reamertan-lock
readonly DOCUMENTS=share/doc/reamertan
readonly MANIFEST=$DOCUMENTS/MANIFEST
readonly PLACING=$DOCUMENTS/PLACING PLACED=$DOCUMENTS/PLACED

# Prints the first folder of a path that is a link: ROOT PATH. What stands behind it isn't below ROOT.
link_in() {
    local folder=$2 found=''
    while [[ $folder = */* ]]; do
        folder=${folder%/*}
        [ ! -L "$1/$folder" ] || found=$1/$folder
    done
    [ -z "$found" ] || echo "$found"
}

# The paths of a list that begin with a word, as `file` or `folder`: ROOT LIST WORD. What leads out of ROOT is none.
listed() {
    local path
    while read -r path; do
        [ -n "$(link_in "$1" "$path")" ] || echo "$path"
    done < <(sed -n "s/^$3 //p" "$2" | grep -vE '^/|(^|/)\.\.(/|$)' || true)
}

# The same of an earlier version's manifest, if there is one: ROOT WORD.
earlier() {
    [ ! -f "$1/$MANIFEST" ] || listed "$1" "$1/$MANIFEST" "$2"
}

# Loops are the shell's own, and not a pipe's: who is killed does nothing more.

# Refuses links in the way to what `install` writes of its own: ROOT.
refuse_links() {
    local link
    link=$(link_in "$1" "$MANIFEST")
    [ -z "$link" ] || { root='' && fail "$link is a link, and what stands behind it isn't below $1"; }
}

# Waits for the calls that are putting files in place below ROOT: what their journals say is to be undone by them alone. Who can't write there
# can't open the lock. Who has it takes the file away in the end, and those who waited for it look for another. Without the lock nothing is undone:
# there is no `root` any more.
lock() {
    local waiting=''
    [ -z "$lock" ] || return 0
    [ -d "$1" ] || is_new=yes
    mkdir -p "$1"
    locked=$1/$LOCK
    until [ -n "$waiting" ] && [ "$locked" -ef "/dev/fd/$waiting" ]; do
        [ -z "$waiting" ] || exec {waiting}>&-
        [ ! -L "$locked" ] && (umask 077 && : >>"$locked") || { root='' && fail "$locked can't be locked"; }
        exec {waiting}<>"$locked"
        flock -w 60 "$waiting" || { root='' && fail "another call of install is at work"; }
    done
    lock=$waiting
}

# Lets others in, for as long as nothing below PREFIX is changed. Programs that are begun then, and go on, hold no lock.
unlock() {
    [ -n "$lock" ] || return 0
    rm -f "$locked"
    exec {lock}>&-
    lock=''
}

# Undoes what was begun below ROOT, or ends what was nearly done.
recover() {
    [ -d "$1" ] || return 0
    refuse_links "$1"
    lock "$1"
    # Of a journal that wasn't begun nothing was done.
    rm -f "$1/$PLACING$NEW"
    if [ -f "$1/$PLACING" ]; then
        remove_new "$1"
        put_back "$1"
        # Folders go last, and the journal before its own.
        listed "$1" "$1/$PLACING" folder >"$made/folders"
        rm "$1/$PLACING"
        remove_folders "$1" "$made/folders"
    elif [ -f "$1/$PLACED" ]; then
        forget_old "$1"
    fi
}

is_there() {
    [ -e "$1" ] || [ -L "$1" ]
}

# The files that are new go: ROOT.
remove_new() {
    local file
    while read -r file; do rm -f "$1/$file" "$1/$file$NEW"; done < <(listed "$1" "$1/$PLACING" new)
}

# The files that were there come back: ROOT.
put_back() {
    local file
    while read -r file; do
        ! is_there "$1/$file$OLD" || mv -fT "$1/$file$OLD" "$1/$file"
        rm -f "$1/$file$NEW"
    done < <(listed "$1" "$1/$PLACING" there)
}

forget_old() {
    local file
    while read -r file; do rm -f "$1/$file$OLD"; done < <(listed "$1" "$1/$PLACED" there)
    rm "$1/$PLACED"
}

# Removes those of the folders in a list, below ROOT, that are empty, the lowest first: ROOT LIST.
remove_folders() {
    local folder
    while read -r folder; do
        folder=$1/$folder
        # PREFIX itself is `.`, and the last.
        [ ! -d "$folder" ] || [ -L "$folder" ] || rmdir --ignore-fail-on-non-empty "${folder%/.}"
    done < <(sort -r "$2")
}

# The folders that files need below ROOT, the highest first: FILES.
folders() {
    sed 's|[^/]*$||' "$1" | while IFS=/ read -ra parts; do
        printf '.\n'
        for ((place = 1; place <= ${#parts[@]}; place++)); do
            (IFS=/ && echo "${parts[*]:0:place}")
        done
    done | sort -u
}

# Writes what a tree has, and which folders aren't there yet: TREE ROOT.
plan_placing() {
    local folder
    find "$1" ! -type d -printf '%P\n' | sort >"$made/files"
    echo "$MANIFEST" >>"$made/files"
    folders "$made/files" >"$made/folders"
    while read -r folder; do
        [ ! -L "$2/$folder" ] || [ "$folder" = . ] || fail "$2/$folder is a link, and what stands behind it isn't below $2"
        [ -d "$2/$folder" ] && [ "$folder$is_new" != .yes ] || echo "folder $folder"
    done <"$made/folders" >"$made/new_folders"
}

# Writes what can be taken away, into the tree: TREE ROOT. Folders of its own documents are its own, whoever made them.
write_manifest() {
    {
        sed 's/^/file /' "$made/files"
        cat "$made/new_folders"
        { earlier "$2" folder && grep "^$DOCUMENTS" "$made/folders"; } | sed 's/^/folder /'
    } | sort -u >"$made/MANIFEST"
    command install -D -m 644 "$made/MANIFEST" "$1/$MANIFEST"
}

# Writes what is to be done: ROOT. Files of an earlier version go with it.
write_journal() {
    local file
    while read -r file; do
        if is_there "$1/$file"; then
            echo "there $file"
        else
            echo "new $file"
        fi
    done < <({ cat "$made/files" && earlier "$1" file; } | sort -u)
    cat "$made/new_folders"
}

# Whether a file is an earlier version's: one of its manifest, and where that is lost any: ROOT FILE.
is_earlier() {
    if [ -f "$1/$MANIFEST" ]; then
        earlier "$1" file | grep -xF -- "$2" >/dev/null
    else
        [ -f "$1/$DOCUMENTS/LINKED" ]
    fi
}

# Refuses what is in the way: folders, and files that aren't an earlier version's: ROOT.
refuse_foreign() {
    local file
    while read -r file; do
        is_earlier "$1" "$file" && { [ ! -d "$1/$file" ] || [ -L "$1/$file" ]; } || fail "$1/$file is there, and isn't Reamertan's"
    done < <(listed "$1" "$made/journal" there)
}

# Puts a tree in place below ROOT: TREE ROOT.
place_tree() {
    local file
    plan_placing "$1" "$2"
    write_manifest "$1" "$2"
    write_journal "$2" >"$made/journal"
    refuse_foreign "$2"
    mkdir -p "$2/$DOCUMENTS"
    cp "$made/journal" "$2/$PLACING$NEW"
    mv -fT "$2/$PLACING$NEW" "$2/$PLACING"
    while read -r file; do
        mkdir -p "$(dirname "$2/$file")"
        rm -f "$2/$file$NEW"
        cp -dp "$1/$file" "$2/$file$NEW"
    done <"$made/files"
    exchange "$2"
    # All is in place: whoever ends it now comes too late.
    trap '' HUP INT TERM
    mv -fT "$2/$PLACING" "$2/$PLACED"
    forget_old "$2"
}

# Files that were there go aside, and the new ones take their places: ROOT.
exchange() {
    local file
    while read -r file; do
        ! is_there "$1/$file" || mv -fT "$1/$file" "$1/$file$OLD"
        ! is_there "$1/$file$NEW" || mv -fT "$1/$file$NEW" "$1/$file"
    done < <(listed "$1" "$made/journal" there && listed "$1" "$made/journal" new)
}

# Takes away all that the manifest names, which goes last: ROOT.
take_away() {
    local file
    [ -f "$1/$MANIFEST" ] || fail "there is no $1/$MANIFEST, which would say what to take away"
    cp "$1/$MANIFEST" "$made/MANIFEST"
    listed "$1" "$made/MANIFEST" folder >"$made/folders"
    listed "$1" "$made/MANIFEST" file >"$made/files"
    sed -n 's/^file //p' "$made/MANIFEST" | grep -vxFf "$made/files" | sed "s|^|install: not below $1, and left: |" >&2 || true
    while read -r file; do [ "$file" = "$MANIFEST" ] || rm -f "$1/$file"; done <"$made/files"
    rm "$1/$MANIFEST"
    unlock
    remove_folders "$1" "$made/folders"
}
