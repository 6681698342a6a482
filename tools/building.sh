# shellcheck shell=sh disable=SC2154
# How the commands build: what is stale, how it is proved and built, and where it goes. tools/common.sh includes this file.
#
# Two looks find whether something is stale. The first compares times: no source, no folder of sources and no built file has a
# status-change time (ctime) later than the last whole look, and the kit has the same version. Nothing can set that time back, so
# `cp -p`, `git checkout` and `touch -d` are noticed, and a file that is added, renamed or removed changes its folder. If something
# is newer, the second look decides: the sums of the sources and of the built files. If they are those of the last build, nothing
# is built, and the time of this look is kept. A clock that shows a time before the last look also counts as newer.
#
# rt keeps its own work in crates/NAME/out, and takes from there and from other checkouts what it has proved of the same text. No
# look goes there: what rt makes is copied into target/.
#
# target/made/ has for each product NAME.sum, what it was made from and its sum; NAME.seen, whose time is that of the last whole
# look; and NAME.log, what the build said.

# ---- what is stale
# What is looked at next: its sources and its files, all from the root folder and without spaces.
product() { # NAME SOURCES FILE..
    record=$target/made/$1.sum seen=$target/made/$1.seen log=$target/made/$1.log inputs=$2
    shift 2
    outputs=$*
}

sum() { # FILE..
    (cd "$root" && find "$@" \( -path '*/must-fail/*' -o -regex 'crates/[^/]*/out' \) -prune -o -type f -exec sha256sum {} + 2>/dev/null |
        sort | sha256sum)
}

# What a build depends on: the sources and the kit. Without the kit nothing can be built, so what is there stays good.
sources() {
    # shellcheck disable=SC2086
    sum $inputs
    if command -v rt >/dev/null 2>&1; then rt version </dev/null; else sed -n 2p "$record" 2>/dev/null; fi
}

# The first look. What find cannot look at, or says beside it, counts as newer.
unchanged() {
    [ -f "$record" ] && [ -f "$seen" ] || return 1
    # shellcheck disable=SC2086
    newer=$(cd "$root" && find $inputs $outputs "$record" "$seen" -path "$seen" \( -newermt now -print -quit -o -true \) -o \
        \( -path '*/must-fail/*' -o -regex 'crates/[^/]*/out' \) -prune -o -cnewer "$seen" -print -quit 2>&1) && [ -z "$newer" ] || return 1
    ! command -v rt >/dev/null 2>&1 || [ "$(rt version </dev/null)" = "$(sed -n 2p "$record")" ]
}

# Leaves in `from` what a build would rest on, where it has to be built.
up_to_date() {
    ! unchanged || return 0
    # It is begun before anything is summed, and by more than a tick of the clock: what changes from here on is newer than it. In
    # a folder that cannot be written every look is a whole one.
    look=$seen.$$
    if (: >"$look") 2>/dev/null; then sleep 0.02; else look=''; fi
    from=$(sources)
    is=1
    # shellcheck disable=SC2086
    if is_there $outputs && [ "$from$nl$(sum $outputs)" = "$(cat "$record" 2>/dev/null)" ]; then is=0; fi
    if [ -n "$look" ]; then
        if [ "$is" -eq 0 ]; then mv -f -- "$look" "$seen"; else rm -f -- "$look"; fi
    fi
    return "$is"
}

is_there() { # FILE..
    for file; do [ -f "$root/$file" ] || return 1; done
}

# Keeps what the product was made from.
keep() {
    # shellcheck disable=SC2086
    printf '%s\n' "$from" "$(sum $outputs)" >"$record" || fail 2 "cannot write $record"
}

# ---- by the kit
# Sees to it that target/FILE is what the command makes of the sources by the kit.
made() { # FILE COMMAND..
    product "${1##*/}" 'crates crates.txt' "target/$1"
    shift
    for tool in find sort sha256sum; do need "$tool" "a sum of the sources"; done
    ! up_to_date || return 0
    need rt "the Rattle kit"
    lock
    # Another may have built it meanwhile.
    up_to_date || build "$@"
    unlock
}

# Proves a crate and those that it stands on, at most four at a time, since each may take gigabytes: rt lib and rt run take one after
# the other.
prove() { # NAME
    jobs=$(nproc)
    [ "$jobs" -le 4 ] || jobs=4
    (cd "crates/$1" && rt all check --jobs "$jobs")
}

build() { # COMMAND..
    writable "$target" "$target/made"
    for folder in "$target/bin" "$target/staticlib" "$root"/crates/*/out; do
        [ ! -e "$folder" ] || writable "$folder"
    done
    # A file that something else has changed is made once more.
    [ "$from" != "$(head -n 2 "$record" 2>/dev/null)" ] || rm -f -- "$root/$outputs"
    rm -f -- "$record"
    say "proving what has changed (the first time takes some minutes)"
    { (cd "$root" && "$@" </dev/null 2>&1); echo "status $?"; } | follow \
        || fail 1 "the build failed; $log has all of its output"
    [ -f "$root/$outputs" ] || fail 1 "the build made no $root/$outputs; $log has all of its output"
    keep
}

# Keeps the build's output in the log, and shows what became of each crate and what the system refused.
follow() {
    last='' lost='' crate=''
    while IFS= read -r line; do
        printf '%s\n' "$line" 2>/dev/null || lost=yes
        case $line in
        'rt: chose '* | 'rt: note: '* | 'rt: rt '* | 'rt: running '*) ;;
        'rt: '*) say "${line#rt: }" ;;
        'crate '*': modules '*) crate=${line#crate } crate=${crate%%:*} ;;
        'logic=proved '*) say "$crate is proved" ;;
        *': failed ('*')') say "$line" ;;
        *': Permission denied' | *': Read-only file system' | *': No space left on device' | *': Disk quota exceeded') say "$line" ;;
        esac
        last=$line
    done >"$log"
    [ -z "$lost" ] || say "cannot write all of $log: is the disk full?"
    [ "$last" = 'status 0' ]
}

# ---- by cargo
# Runs cargo on the crates in rust/, with all that it makes below target/.
cargo_in_target() { # VERB [ARGUMENT..]
    verb=$1
    shift
    if [ -n "${CINDROLF_ARCHIVE_DIR-}" ]; then
        CINDROLF_ARCHIVE_DIR=$(absolute "$CINDROLF_ARCHIVE_DIR")
    else
        unset CINDROLF_ARCHIVE_DIR
    fi
    CARGO_TARGET_DIR=$target/rust cargo "$verb" --manifest-path "$root/rust/Cargo.toml" --offline "$@"
}

# ---- the programs
# rt links a program only to run it, so it runs here once, without input; what became of that run counts for nothing. A program
# that is not proved is not there afterwards.
link_program() { # NAME
    prove "$1" || return 1
    rm -f -- "crates/$1/out/$1"
    (cd "crates/$1" && rt run >/dev/null)
    [ -x "crates/$1/out/$1" ] || return 1
    mkdir -p target/bin && cp -- "crates/$1/out/$1" "target/bin/$1.new" && mv -f -- "target/bin/$1.new" "target/bin/$1"
}

# Sees to it that a proved program is built: session or total.
proved() { # NAME
    made "bin/$1_program" link_program "$1_program"
}

# Sees to it that target/installed has the program cindrolf and those that it starts, laid out as below a prefix.
staged() {
    for tool in find sort sha256sum; do need "$tool" "a sum of the sources"; done
    ! is_staged || return 0
    need_cargo
    need_sqlite
    lock
    # Another may have built it meanwhile.
    is_staged || stage
    unlock
}

# An archive of the caller's own is cargo's to look at.
is_staged() {
    product cindrolf "crates crates.txt include rust/Cargo.toml rust/Cargo.lock rust/cindrolf rust/limits rust/digest rust/session rust/sqlite rust/postgres rust/store rust/trace rust/command" \
        target/installed/bin/cindrolf target/installed/libexec/cindrolf/session target/installed/libexec/cindrolf/total
    [ -z "${CINDROLF_ARCHIVE_DIR-}" ] && up_to_date
}

stage() {
    # In shells of their own, since each looks at another product. The lock stays this one's.
    for name in session total; do
        # shellcheck disable=SC2034
        (held='' && proved "$name") || fail $? "there is no proved program $name"
    done
    "$root/tools/archive" </dev/null || fail $? "there is no archive to link"
    writable "$target" "$target/made" "$target/installed/bin" "$target/installed/libexec/cindrolf"
    rm -f -- "$record"
    say "building the program"
    cargo_in_target build --release --quiet --package cindrolf-command </dev/null || fail 1 "the program does not build"
    put_program "$target/rust/release/cindrolf" bin/cindrolf
    for name in session total; do put_program "$target/bin/${name}_program" "libexec/cindrolf/$name"; done
    [ -n "${CINDROLF_ARCHIVE_DIR-}" ] || keep
}

# ---- the libraries
# Sees to it that target/installed has the libraries and their headers, laid out as below a prefix.
libraries() {
    for tool in find sort sha256sum; do need "$tool" "a sum of the sources"; done
    number=$(version) && store_number=$(store_version) || exit 2
    ! has_libraries || return 0
    need_cargo
    need_sqlite
    compiler=${CC:-cc}
    need "${compiler%% *}" "a C compiler (CC names another)"
    lock
    # Another may have built them meanwhile.
    has_libraries || build_libraries
    unlock
}

has_libraries() {
    product libraries "crates crates.txt include rust/Cargo.toml rust/Cargo.lock rust/cindrolf rust/limits rust/digest rust/sqlite rust/postgres rust/store rust/store_library" \
        target/installed/lib/libcindrolf.a "target/installed/lib/libcindrolf.so.$number" target/installed/lib/libcindrolf_store.a \
        "target/installed/lib/libcindrolf_store.so.$store_number"
    [ -z "${CINDROLF_ARCHIVE_DIR-}" ] && up_to_date
}

build_libraries() {
    "$root/tools/archive" </dev/null || fail $? "there is no archive to link"
    writable "$target" "$target/made" "$target/installed/lib" "$target/installed/include"
    rm -f -- "$record"
    say "building the libraries"
    cargo_in_target build --release --quiet --package cindrolf-store-library </dev/null || fail 1 "the library of the store does not build"
    archive=${CINDROLF_ARCHIVE_DIR:-$target/staticlib}/libcindrolf.a
    # Only the library's own functions can be seen from outside, and all that they need has to be there.
    echo '{ global: cindrolf_*; local: *; };' >"$target/made/exported"
    $compiler -shared -o "$target/made/shared" -Wl,-soname,"libcindrolf.so.$number" -Wl,--version-script="$target/made/exported" -Wl,-z,defs \
        -Wl,--whole-archive "$archive" -Wl,--no-whole-archive || fail 1 "the archive makes no shared library"
    put_program "$archive" lib/libcindrolf.a
    put_program "$target/made/shared" "lib/libcindrolf.so.$number"
    put_program "$target/rust/release/libcindrolf_store_library.a" lib/libcindrolf_store.a
    put_program "$target/rust/release/libcindrolf_store_library.so" "lib/libcindrolf_store.so.$store_number"
    # What debuggers read is most of their bytes.
    (cd "$target/installed/lib" && strip --strip-debug libcindrolf_store.a "libcindrolf_store.so.$store_number") 2>/dev/null
    second_name "libcindrolf.so.$number" libcindrolf.so
    second_name "libcindrolf_store.so.$store_number" libcindrolf_store.so
    for header in "$root"/include/*; do put_program "$header" "include/${header##*/}"; done
    [ -n "${CINDROLF_ARCHIVE_DIR-}" ] || keep
}

# No symbolic link: rt ci refuses a checkout that has one anywhere, also below target/.
second_name() { # FILE NAME
    ln -f -- "$target/installed/lib/$1" "$target/installed/lib/$2" || fail 2 "cannot write in $target/installed/lib"
}

# Replaces a program or a library whole: one that runs goes on as it is.
put_program() { # FROM PLACE
    { cp -- "$1" "$target/installed/$2.new" && mv -f -- "$target/installed/$2.new" "$target/installed/$2"; } ||
        fail 2 "cannot write $target/installed/$2"
}
