# What bench/launcher.sh tries of programs that are built without proof and kept; it sources this. Each check begins with
# an empty cache, and each wants that the calls in it end as they have to.

# is_wrong NAME: tells what is otherwise than wanted. Nothing else is tried where that is enough.
is_wrong() {
    echo "$1"
    wrong=$((wrong + 1))
    [ -z "${is_enough-}" ] || exit 1
}

# copies_launcher FOLDER: a repository with the launcher, whose crates have a line each.
copies_launcher() {
    local name
    mkdir -p -- "$1/share"
    cp -r -- "$root/upsched" "$root/crates.txt" "$root/quick" "$1"
    cp -r -- "$root/share/help" "$1/share"
    closure upsched | while read -r name; do
        mkdir -p -- "$1/crates/$name/src"
        echo "//! $name" >"$1/crates/$name/src/lib.rt"
    done
    echo '//! The program.' >"$1/crates/upsched/src/main.rt"
}

# begins: with an empty cache, and a stand-in that does as the kit does.
begins() {
    chmod -R u+rwX -- "$XDG_CACHE_HOME" 2>/dev/null
    rm -rf -- "$XDG_CACHE_HOME" "$made/moods"/*
    : >"$made/builds" >"$made/runs"
}

# The call that most checks make, and how it ends.
plan=$root/examples/plans/first_grant.toml
asks() {
    "$upsched" maps "$plan" >"$made/output" 2>"$made/errors" </dev/null
    ended=$?
}

# after NAME BUILDS [PATTERN]: that call, which has to answer, to build so often, and to say such a line.
after() {
    : >"$made/builds"
    asks
    wants "$1" 0 '1 channel 1 ucd 7' '*'
    [ "$(wc -l <"$made/builds")" = "$2" ] || is_wrong "$1: $(wc -l <"$made/builds") builds, and not $2"
    says_so "$1" "${3:-upsched: built without proof, kept in $XDG_CACHE_HOME/upsched/*/program; the proved one: ./upsched --build*}"
}

# says_so NAME PATTERN: whether the last call said such a line on standard error.
says_so() {
    local line
    while read -r line; do
        [[ $line != $2 ]] || return 0
    done <"$made/errors"
    is_wrong "$1: it doesn't say '$2', but: $(head -n 2 "$made/errors")"
}

# folders: of the programs that are kept.
folders() {
    find "$XDG_CACHE_HOME/upsched" -mindepth 1 -maxdepth 1 -type d -name '????????????????????????????????*'
}

# no_builds_left NAME: whether no folder of a build is there.
no_builds_left() {
    [ -z "$(find "$XDG_CACHE_HOME/upsched" -name 'build.*')" ] || is_wrong "$1: a folder of a build is left"
}

# Another key is another program: of the kit, the level, each crate that is below, and what makes the program.
check_keys() {
    local name
    begins
    after 'the first call' 1 'upsched: building without proof, once'
    after 'the second call' 0
    echo 'another kit' >"$made/kit/KIT-ID"
    after 'another kit' 1
    echo 'a stand-in for a kit' >"$made/kit/KIT-ID"
    after 'the first kit' 0
    sed -i 's/^maps -Os/maps -O3/' "$repository/quick/programs.txt"
    after 'another level' 1
    grep -q -- '^# -O3$' "$(ls -td "$XDG_CACHE_HOME"/upsched/*/program | head -n 1)" || is_wrong 'another level: not by that'
    cp -- "$root/quick/programs.txt" "$repository/quick"
    for name in $(closure upsched_ends upsched_maps); do
        echo '// changed' >>"$repository/crates/$name/src/lib.rt"
        after "another text of $name" 1
    done
    for name in quick/maps.rt.in quick/keep.sh quick/tools/clang quick/tools/ld.lld; do
        echo '# changed' >>"$repository/$name"
        after "another $name" 1
        cp -- "$root/$name" "$repository/$name"
    done
    mv -- "$repository/crates/map_body/src/lib.rt" "$repository/crates/map_body/src/bil.rt"
    after 'a file of another name' 1 'upsched: not kept: no program came of it: error: no file *'
    mv -- "$repository/crates/map_body/src/bil.rt" "$repository/crates/map_body/src/lib.rt"
    echo '// changed' >>"$repository/crates/modem/src/lib.rt"
    after 'another text of a crate that is not below' 0
}

# What is kept is built anew where it isn't what it was, or others could have changed it.
check_trust() {
    local folder name
    begins
    after 'nothing there' 1
    folder=$(folders)
    while IFS='%' read -r name command line; do
        eval "$command"
        after "$name" 1 "upsched: *$line*, so it is built anew"
        after "$name, and then" 0
        [ "$(stat -c '%F %a %u' "$folder")" = "directory 700 $(id -u)" ] || is_wrong "$name: the folder is left so"
    done <<'END'
a bit that is turned%printf '\141' | dd of="$folder/program" bs=1 seek=2 conv=notrunc status=none%isn't what its sum says
a program that is cut short%truncate -s 30 "$folder/program"%isn't what its sum says
an empty program%: >"$folder/program"%isn't what its sum says
a program that is a link%mv "$folder/program" "$made/moods/program"; ln -s "$made/moods/program" "$folder/program"%is a link
others may write the program%chmod 775 "$folder/program"%others may write
a program that can't be run%chmod 600 "$folder/program"%can't be run
no program%rm "$folder/program"%is missing
no sum%rm "$folder/sum"%is missing
an empty sum%: >"$folder/sum"%isn't what its sum says
others may write the sum%chmod 622 "$folder/sum"%others may write
others may write the folder%chmod g+w "$folder"%others may write
all may write the folder%chmod 1777 "$folder"%others may write
a folder that is a link%mv "$folder" "$made/moods/folder"; ln -s "$made/moods/folder" "$folder"%is a link
a file in place of the folder%rm -r "$folder"; : >"$folder"%is a link, or isn't
END
    chmod g+w "$XDG_CACHE_HOME/upsched"
    after 'others may write the cache' 1 'upsched: others may write *'
    after 'others may write the cache, and then' 0
    if [ "$(id -u)" = 0 ]; then
        chown 65534 "$folder/program"
        after "another user's program" 1 "upsched: *is another user's, so it is built anew"
        chown 65534 "$folder"
        after "another user's folder" 1 "upsched: *is another user's, so it is built anew"
        chown 65534 "$XDG_CACHE_HOME/upsched"
        after "another user's cache" 1 "upsched: not kept: *is another user's"
    fi
}

# A program comes to its place by one rename, so that nobody sees a part of it.
check_rename() {
    begins
    mkdir -p "$XDG_CACHE_HOME/upsched" && chmod 700 "$XDG_CACHE_HOME/upsched"
    python3 - "$XDG_CACHE_HOME/upsched" >"$made/seen" <<'END' &
import ctypes, os, struct, sys
libc = ctypes.CDLL(None)
watch = libc.inotify_init()
libc.inotify_add_watch(watch, sys.argv[1].encode(), 0x100 | 0x80)
print("watches", flush=True)
while True:
    events = os.read(watch, 65536)
    while events:
        _, mask, _, length = struct.unpack("iIII", events[:16])
        print("made" if mask & 0x100 else "came", events[16:16 + length].rstrip(b"\0").decode(), flush=True)
        events = events[16 + length:]
END
    watcher=$!
    until grep -q watches "$made/seen"; do sleep 0.1; done
    after 'a rename' 1
    until grep -q "$(basename -- "$(folders)")" "$made/seen"; do sleep 0.1; done
    kill "$watcher"
    wait "$watcher" 2>/dev/null
    grep -q "^came $(basename -- "$(folders)")$" "$made/seen" || is_wrong "a rename: it wasn't one"
    ! grep -q "^made $(basename -- "$(folders)")$" "$made/seen" || is_wrong "a rename: the folder wasn't whole as it came"
    no_builds_left 'a rename'
}

# starts FILE: that call beside this script. It takes SIGINT as a call on a terminal does.
starts() {
    env --default-signal=INT,QUIT setsid "$upsched" maps "$plan" >"$made/output.$1" 2>"$made/errors.$1" </dev/null &
}

# waits_for FILE [LINES]: until so many lines are there.
waits_for() {
    local k
    for ((k = 0; k < 1000; k++)); do
        [ "$(wc -l <"$1")" -lt "${2-1}" ] || return 0
        sleep 0.2
    done
    is_wrong "nothing came to $1"
}

# two_calls NAME FILE [LINES]: of which the first one ends its build when that is there.
two_calls() {
    local first second one
    begins
    : >"$made/moods/waits"
    starts first
    first=$!
    waits_for "$made/builds"
    starts second
    second=$!
    waits_for "${@:2}"
    rm -- "$made/moods/waits"
    wait "$first" "$second"
    for one in first second; do
        [ "$(head -n 1 "$made/output.$one")" = '1 channel 1 ucd 7' ] || is_wrong "$1: no answer of the $one one"
    done
    no_builds_left "$1"
}

# Of two calls at once the second one waits, says so, and builds nothing. Without `flock` both build.
check_lock() {
    : >"$made/errors.second"
    two_calls 'two calls' "$made/errors.second"
    [ "$(wc -l <"$made/builds")" = 1 ] || is_wrong "two calls: $(wc -l <"$made/builds") builds"
    grep -q '^upsched: waiting for the build of another call$' "$made/errors.second" || is_wrong 'two calls: no word of it'
    makes_tools flock
    PATH=$made/kit/bin:$made/tools two_calls 'no flock' "$made/builds" 2
    [ "$(wc -l <"$made/builds")" = 2 ] || is_wrong "no flock: $(wc -l <"$made/builds") builds"
    after 'no flock, and then' 0
}

# makes_tools NAME..: a folder of links to all programs on the path but these.
makes_tools() {
    local name folder
    rm -rf -- "$made/tools"
    mkdir -- "$made/tools"
    for folder in /usr/bin /bin; do cp -rsn -- "$folder/." "$made/tools" 2>/dev/null; done
    for name in "$@"; do rm -f -- "$made/tools/$name"; done
}

# A failed check is said, and another signal's number passed on.
check_signals() {
    begins
    after 'no signal' 1
    echo ILL >"$made/moods/ends"
    asks
    wants 'a failed check' 6 '' 'upsched: a check failed in a build without proof'
    echo SEGV >"$made/moods/ends"
    asks
    wants 'another signal' 139 '' ''
    [ "$(wc -l <"$made/errors")" = 1 ] || is_wrong "another signal: $(tail -n 1 "$made/errors")"
}

# Where no program comes of a build, nothing is kept, and the call goes the way of one that isn't kept, and says so.
check_failures() {
    local mood
    for mood in refuses links_half; do
        begins
        : >"$made/moods/$mood"
        after "a build that $mood" 2 'upsched: not kept: no program came of it*'
        [ -z "$(folders)" ] || is_wrong "a build that $mood: something is kept"
        no_builds_left "a build that $mood"
        : >"$made/errors"
        "$upsched" draw "$plan" --plan >"$made/output" 2>"$made/errors"
        ended=$?
        says_so "draw and a build that $mood" 'upsched: not kept: *'
        wants "draw and a build that $mood" 6 '' '*'
        rm -- "$made/moods/$mood"
        after 'a build behind it' 1
    done
    [ ! -f "$made/would_run" ] || is_wrong 'what was linked would have been run'
}

# Where there is no cache or no kit, the call says so; a program that is kept needs no rt.
check_places() {
    local line='upsched: not kept: neither XDG_CACHE_HOME nor HOME is the absolute path of a folder'
    begins
    (unset HOME XDG_CACHE_HOME && after 'no HOME' 1 "$line" && exit "$wrong") || wrong=$?
    (unset XDG_CACHE_HOME && HOME=here after 'a relative HOME' 1 "$line" && exit "$wrong") || wrong=$?
    (HOME=$made/home XDG_CACHE_HOME=here after 'a relative XDG_CACHE_HOME' 1 \
        "upsched: built without proof, kept in $made/home/.cache/upsched/*" && exit "$wrong") || wrong=$?
    : >"$made/file"
    (XDG_CACHE_HOME=$made/file after 'a file' 1 "upsched: not kept: $made/file/upsched can't be made" && exit "$wrong") ||
        wrong=$?
    mv -- "$made/kit/KIT-ID" "$made/KIT-ID"
    after 'no name of a kit' 1 'upsched: not kept: no file KIT-ID in *'
    mv -- "$made/KIT-ID" "$made/kit/KIT-ID"
    after 'a kit' 1
    makes_tools rt
    PATH=$made/tools after 'no rt, and a program that is kept' 0
    if [ "$(id -u)" = 0 ]; then
        cp -- "$plan" "$made/plan.toml"
        mkdir -m 555 -- "$made/closed"
        chmod -R go+rX -- "$made"
        : >"$made/builds"
        XDG_CACHE_HOME=$made/closed setpriv --reuid=65534 --regid=65534 --clear-groups "$upsched" maps \
            "$made/plan.toml" >"$made/output" 2>"$made/errors"
        ended=$?
        wants 'a cache that is not to be written' 0 '1 channel 1 ucd 7' '*'
        says_so 'a cache that is not to be written' 'upsched: not kept: *'
    fi
}

# `node` takes the launcher's own process: whoever kills that one ends it.
check_node() {
    local launcher program
    begins
    mkfifo "$made/moods/lines"
    "$upsched" node 0 --members 3 <>"$made/moods/lines" >"$made/output" 2>"$made/errors" &
    launcher=$!
    waits_for "$made/runs"
    read -r program _ <"$made/runs"
    [ "$program" = "$launcher" ] || is_wrong 'a node: another process than that of the call'
    kill -KILL "$launcher"
    wait "$launcher" 2>/dev/null
    ! kill -0 "$program" 2>/dev/null || { is_wrong 'a node: its process is left'; kill -KILL "$program"; }
}

# The proved program goes before what is kept. The whole one that is kept takes every word, and says why it refuses some.
check_choice() {
    begins
    after 'the small one' 1
    asks_whole show --names "$(cat -- "$root/examples/bodies/first_grant.hex")"
    says_so 'the whole one' 'upsched: built without proof, kept in *; the proved one: ./upsched --build; this one is slow'
    after 'the whole one, for other words' 0
    [[ $(tail -n 1 "$made/runs") == *' quick_whole maps '* ]] || is_wrong 'the whole one: another one was called'
    asks_whole frobnicate
    wants 'the whole one, of words' 2 '' 'error: *'
    mkdir -- "$repository/crates/upsched/out"
    cp -- "$program" "$repository/crates/upsched/out/upsched"
    : >"$made/runs"
    asks
    wants 'the proved one' 0 '1 channel 1 ucd 7' ''
    [ ! -s "$made/runs" ] && [ ! -s "$made/errors" ] || is_wrong 'the proved one: it was passed over'
    rm -r -- "$repository/crates/upsched/out"
}

# asks_whole WORD..
asks_whole() {
    "$upsched" "$@" >"$made/output" 2>"$made/errors" </dev/null
    ended=$?
}

# Whoever ends a call ends its build, and the next one takes away what it left.
check_stops() {
    local signal call
    begins
    for signal in INT TERM KILL; do
        : >"$made/builds" >"$made/moods/waits"
        starts stopped
        call=$!
        waits_for "$made/builds"
        kill -s "$signal" "$call"
        wait "$call" 2>/dev/null
        ended=$?
        [ "$ended" = $((128 + $(kill -l "$signal"))) ] || is_wrong "SIG$signal: status $ended"
        [ "$signal" = KILL ] || no_builds_left "SIG$signal"
        [ -z "$(folders)" ] || is_wrong "SIG$signal: something is kept"
    done
    rm -- "$made/moods/waits"
    after 'behind a build that was stopped' 1
    no_builds_left 'behind a build that was stopped'
}

# Sources that change as they are built, what nobody uses for long, and a build on a terminal.
check_changes() {
    local old
    begins
    cat >"$made/moods/edits" <<END
echo '// changed' >>'$repository/crates/map_body/src/lib.rt'
rm -- '$made/moods/edits'
END
    after 'sources that change' 2
    after 'sources that changed' 0
    old=$(folders | head -n 1)
    touch -d '31 days ago' "$old"
    mkdir -m 700 "$XDG_CACHE_HOME/upsched/build.1.left"
    echo '// changed' >>"$repository/crates/map_body/src/lib.rt"
    after 'behind 31 days' 1
    [ ! -e "$old" ] || is_wrong 'behind 31 days: it is kept'
    [ "$(folders | wc -l)" = 2 ] || is_wrong 'behind 31 days: others went too'
    no_builds_left 'behind 31 days'
    echo '// changed' >>"$repository/crates/map_body/src/lib.rt"
    echo 1.5 >"$made/moods/sleeps"
    python3 -c 'import pty, sys; sys.exit(pty.spawn(sys.argv[1:]))' "$upsched" maps "$plan" >"$made/output" </dev/null
    grep -q $'\rupsched: building without proof, once: [1-9][0-9]* s' "$made/output" || is_wrong 'a terminal: no seconds'
    grep -q $'\r\033\\[K' "$made/output" || is_wrong 'a terminal: the line is left'
}

# A disk that is full at some point of a build: a right answer in any case, and nothing that is kept in part.
check_full() {
    local size kept=0
    begins
    unshare -m true 2>/dev/null || { echo 'passed over, since nothing can be mounted here: a full disk' && return; }
    for size in 60 140 200 240 280 320 4000; do
        mkdir -p -- "$XDG_CACHE_HOME"
        : >"$made/builds"
        unshare -m bash -c 'mount -t tmpfs -o "size=$1k,mode=755" none "$2" && "$3" maps "$4" && ls "$2"/upsched/*/sum' \
            - "$size" "$XDG_CACHE_HOME" "$upsched" "$plan" >"$made/output" 2>"$made/errors" </dev/null
        [ "$(head -n 1 "$made/output")" = '1 channel 1 ucd 7' ] || is_wrong "a disk of $size KiB: no answer"
        if grep -q '/sum$' "$made/output"; then
            kept=$((kept + 1))
            says_so "a disk of $size KiB" 'upsched: built without proof, kept in *'
        else
            says_so "a disk of $size KiB" 'upsched: not kept: *'
        fi
    done
    [ "$kept" -gt 0 ] && [ "$kept" -lt 7 ] || is_wrong "full disks: $kept of 7 builds were kept"
}

# tries_kept CHECK..: these, or all.
tries_kept() {
    local name
    [ $# -gt 0 ] || set -- check_keys check_trust check_rename check_lock check_signals check_failures check_places \
        check_node check_choice check_stops check_changes check_full
    for name in "$@"; do
        "$name"
    done
    begins
    rm -rf -- "$repository"
    copies_launcher "$repository"
}

# tries_edits NAME..: whether `kept` refuses the launcher with each of these edits, or with any of bench/launcher/.
tries_edits() {
    local edit name check missed=0
    [ $# -gt 0 ] || set -- "$root"/bench/launcher/*.edit
    for edit in "$@"; do
        name=$(basename -- "$edit" .edit)
        rm -rf -- "$made/edited"
        mkdir -- "$made/edited"
        cp -r -- "$root"/{bench,crates.txt,quick,share,upsched} "$made/edited"
        ln -s -- "$root/examples" "$made/edited/examples"
        check=$(python3 "$root/bench/launcher_edit.py" "$root/bench/launcher/$name.edit" "$made/edited") || exit
        if is_enough=yes "$made/edited/bench/launcher.sh" kept "$program" "$check" >"$made/said"; then
            echo "$name isn't refused"
            missed=$((missed + 1))
        else
            echo "$name: $(head -n 1 "$made/said")"
        fi
    done
    [ "$missed" = 0 ]
}
