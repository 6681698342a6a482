# shellcheck shell=sh disable=SC2154
# What the commands share. POSIX sh. A command in the root folder begins with
#
#     self=$(readlink -f -- "$0") && root=${self%/*} || exit 2
#     . "$root/tools/common.sh"
#
# and one in a folder below it with root=${self%/*/*}. Nothing here changes the folder that the caller is in.
unset CDPATH
me=${self#"$root"/}
target=$root/target
nl='
'

say() { printf '%s: %s\n' "$me" "$*" >&2; }

fail() { # STATUS MESSAGE
    say "$2"
    depth=1
    unlock
    exit "$1"
}

# Prints the usage if it is asked for, and refuses any other option. Further arguments are the command's.
options() { # [ARGUMENT..]
    case ${1-} in
    -h | --help)
        printf '%s\n' "$usage"
        exit 0
        ;;
    -?*) fail 2 "there is no option $1$nl$usage" ;;
    esac
}

need() { # TOOL WHAT-IT-IS
    command -v "$1" >/dev/null 2>&1 || fail 2 "$2 is needed, and there is no command '$1' on the PATH"
}

# Debian's is older.
need_cargo() { need cargo "Rust 1.88 or later, as from https://rustup.rs,"; }

# The library SQLite, by a program that links it.
need_sqlite() {
    folder=$(mktemp -d) || fail 2 "cannot make a folder for temporary files"
    echo 'int sqlite3_libversion_number(void); int main(void) { return !sqlite3_libversion_number(); }' >"$folder/links.c"
    links=yes
    ${CC:-cc} "$folder/links.c" -lsqlite3 -o "$folder/links" >/dev/null 2>&1 || links=''
    rm -rf -- "$folder"
    [ -n "$links" ] || fail 2 "SQLite is needed, and no program links with -lsqlite3: install Debian's package libsqlite3-dev"
}

# The version of the interface, which is that of the product.
version() {
    sed -n 's/^#define CINDROLF_VERSION UINT64_C(\([0-9]*\))$/\1/p' "$root/include/cindrolf.h" | grep . ||
        fail 2 "$root/include/cindrolf.h has no CINDROLF_VERSION"
}

# The version of the interface of the store, for C, C++ and Python.
store_version() {
    sed -n 's/^#define CINDROLF_STORE_VERSION UINT64_C(\([0-9]*\))$/\1/p' "$root/include/cindrolf_store.h" | grep . ||
        fail 2 "$root/include/cindrolf_store.h has no CINDROLF_STORE_VERSION"
}

# A path as it is called from any folder.
absolute() { # PATH
    case $1 in
    /*) printf '%s\n' "$1" ;;
    *) printf '%s\n' "$PWD/$1" ;;
    esac
}

# Makes the folders where they are not there, and stops where one cannot be written.
writable() { # FOLDER..
    for folder; do
        why=$(mkdir -p -- "$folder" 2>&1) || fail 2 "cannot make the folder $folder: ${why##*: }"
        why=$( (: >"$folder/.try.$$") 2>&1) || fail 2 "cannot write in the folder $folder: ${why##*: }"
        rm -f -- "$folder/.try.$$"
    done
}

# ---- the lock: one command at a time builds in target/
# It stands beside target/, so that this can be removed. What a command starts shares its lock, by CINDROLF_LOCKED. A command that locks
# twice unlocks twice.
held='' depth=0

lock() {
    if [ "${CINDROLF_LOCKED-}" = "$root" ]; then
        depth=$((depth + 1))
        return 0
    fi
    if command -v flock >/dev/null 2>&1; then
        why=$( (: >>"$root/.lock") 2>&1) || fail 2 "cannot write $root/.lock: ${why##*: }"
        exec 9>>"$root/.lock"
        if ! flock -n 9; then
            waiting_for "$(cat "$root/.lock")"
            flock 9 || fail 2 "cannot lock $root/.lock"
        fi
        held=flock
        printf '%s %s\n' "$$" "$me" >"$root/.lock"
    else
        lock_folder "$root/.lock.d"
        held=folder
    fi
    depth=1
    CINDROLF_LOCKED=$root
    export CINDROLF_LOCKED
}

unlock() {
    depth=$((depth - 1))
    [ "$depth" -le 0 ] || return 0
    case $held in
    '') return 0 ;;
    flock) exec 9>&- ;;
    folder) rm -rf -- "$root/.lock.d" ;;
    esac
    held=''
    unset CINDROLF_LOCKED
}

waiting_for() { # HOLDER
    [ -n "$1" ] || set -- 'unknown another command'
    say "waiting for ${1#* } (process ${1%% *}), which builds in $target"
}

# Where there is no flock: the folder is there while the lock is held, and says by whom. A holder that is gone holds nothing.
lock_folder() { # FOLDER
    told=''
    until why=$(mkdir -- "$1" 2>&1); do
        [ -d "$1" ] || fail 2 "cannot make the folder $1: ${why##*: }"
        holder=$(cat "$1/holder" 2>/dev/null)
        if [ -n "$holder" ] && ! alive "${holder%% *}"; then
            # Only who makes `gone` may take the folder away, and only from the holder that it saw.
            if mkdir -- "$1/gone" 2>/dev/null; then
                if [ "$(cat "$1/holder" 2>/dev/null)" = "$holder" ]; then
                    mv -- "$1" "$1.$$" && rm -rf -- "$1.$$"
                else
                    rmdir -- "$1/gone"
                fi
            fi
            continue
        fi
        if [ -z "$told" ]; then
            waiting_for "$holder"
            say "if that process is gone, remove $1"
            told=yes
        fi
        sleep 1
    done
    printf '%s %s\n' "$$" "$me" >"$1/holder"
}

alive() { kill -0 "$1" 2>/dev/null || [ -d "/proc/$1" ]; }

# shellcheck source=tools/building.sh
. "$root/tools/building.sh"
