# shellcheck shell=bash disable=SC2154
# Builds the library and the program for ./fristen, which reads this file, where they are missing or older than their
# sources. An interrupted build leaves what was there before, and the next one goes on with what rt and cargo have kept.
started=$target/fristen.started
proved=$archive.sources # what the archive was built from
built=$target/host/fristen.built # when the program was built, and with which archive
log=$target/fristen.log
job='' reader='' locked=''
declare -A below number

# Removes what this build has begun. Without the lock it is another's.
clean() {
    [[ -n $locked ]] || return 0
    rm -f -- "$started" "$built.new" "$seen.new"
    [[ -n $library ]] || rm -f -- "$archive.new" "$proved.new"
}

unavailable() {
    clean
    echo "fristen: $1" >&2
    exit 69
}

# Ends as the signal would have ended this call.
interrupted() {
    trap - HUP INT TERM
    if [[ -n $job ]]; then
        kill -s TERM -- "-$job"
        wait "$job"
    fi 2>/dev/null
    tool_ended
    clean
    echo "fristen: abgebrochen; der nächste Aufruf baut weiter." >&2
    kill -s "$1" "$$"
}

# Waits for a command. It leads a process group, so that whatever it starts can be ended with it.
wait_for() {
    local status
    set -m
    "$@" </dev/null &
    job=$!
    set +m
    wait "$job" 2>/dev/null
    status=$?
    job=
    return "$status"
}

# Numbers the crates below one and then itself, in the order in which rt builds them.
number_crate() {
    local other
    [[ -n ${below[$1]+listed} && -z ${number[$1]-} ]] || return 0
    for other in ${below[$1]}; do number_crate "$other"; done
    number[$1]=$((${#number[@]} + 1))
}

number_crates() {
    local line
    below=() number=()
    while IFS= read -r line; do
        [[ ! ${line%%#*} =~ ^\ *([a-z0-9_]+)[^:]*:(.*) ]] || below[${BASH_REMATCH[1]}]=${BASH_REMATCH[2]}
    done 2>/dev/null <"$root/crates.txt"
    number_crate mako_fristen_c
}

# The sources with their folders. Of a crate they are its code: specs and proofs change none of it, and whether it meets
# them is what ./test asks.
find_sources() {
    local crate
    number_crates
    shopt -s globstar nullglob
    crates=("$root/crates.txt")
    for crate in "${!number[@]}"; do crates+=("$root/crates/$crate"/src/**); done
    host=("$root"/host/{Cargo.toml,Cargo.lock,build.rs} "$root"/host/src/**)
    shopt -u globstar nullglob
}

# What changes while it is built is newer than the build: the time that counts is that of the beginning.
begin() {
    touch -- "$started"
    find_sources
}

# What is not there counts as newer, so that it is built again or said to be missing.
newer_than() {
    local file=$1 source
    shift
    for source; do
        [[ -e $source && ! $source -nt $file ]] || return 0
    done
    return 1
}

# Where the last file of a folder was removed, the folder may be gone too, and nothing is newer.
archive_is_old() {
    [[ -z $library ]] || return 1
    [[ -f $archive ]] && ! newer_than "$archive" "${crates[@]}" || return 0
    [[ -f $proved && ! $archive -nt $proved && $(<"$proved") != "${crates[*]#"$root/"}" ]]
}

program_is_old() {
    [[ ! -x $program || ! -f $built || $(<"$built") != "$library" ]] || newer_than "$built" "$archive" "${host[@]}"
}

# Whether a line can be written over.
can_write_over() { [[ -t 2 && ${TERM:-dumb} != dumb ]]; }

show_crate() {
    local text="fristen: beweist Teil ${number[$1]} von ${#number[@]}: $1 ..."
    if can_write_over; then printf '\r\033[K%s' "$text"; else echo "$text"; fi >&2
    shown=1
}

# Whether the call is there that this process was started by. One that was killed keeps its number for a while.
caller_is_there() {
    local told
    IFS= read -r told <"/proc/$BASHPID/stat" || return 0
    [[ ${told##*) } == ?" $$ "* ]]
}

# Keeps what a tool prints, and shows at which crate rt is. Ends the tool, whose process group the first line names,
# where this call was killed, and itself with the tool.
follow() {
    local group line part='' shown='' status=0
    trap '' HUP INT PIPE TERM
    IFS= read -r group
    while ((status == 0 || status > 128)); do
        IFS= read -r -t 1 line
        status=$?
        part+=$line
        caller_is_there || kill -s TERM -- "-$group"
        ((status == 0)) || continue
        printf '%s\n' "$part" >&7
        [[ ! $part =~ ^rt:\ chose\ .*\ for\ ([a-z0-9_]+)$ || -z ${number[${BASH_REMATCH[1]}]-} ]] ||
            show_crate "${BASH_REMATCH[1]}"
        part=
    done
    printf '%s' "$part" >&7
    [[ -z $shown ]] || ! can_write_over || printf '\r\033[K' >&2
}

run_tool() {
    exec >&8 2>&1 8>&- 9>&-
    echo "$BASHPID"
    "$@"
}

tool_ended() {
    [[ -n $reader ]] || return
    exec 8>&-
    wait "$reader" 2>/dev/null
    reader=
}

need() { command -v "$1" >/dev/null || unavailable "$1 fehlt; ohne das lässt sich $2 nicht bauen."; }

# A tool is quiet unless it fails. What it prints is kept in a file that has no name any more.
build() {
    local what=$1 command=$2 status
    exec 7>"$log" 6<"$log" || unavailable "kein Platz für das Protokoll."
    rm -f -- "$log"
    exec 8> >(follow >/dev/null)
    reader=$!
    wait_for run_tool "$command"
    status=$?
    tool_ended
    [[ $status == 0 ]] || cat <&6 >&2
    exec 7>&- 6<&-
    [[ $status == 0 ]] || unavailable "$what ließ sich nicht bauen."
}

# `rt lib` first proves and builds the crates below.
prove() { cd -- "$root/crates/mako_fristen_c" && exec rt lib; }

compile() {
    local folder
    folder=$(cd -- "$target/host" && pwd) && cd -- "$root/host" || return
    unset MAKO_FRISTEN_LIB CARGO_BUILD_TARGET
    [[ -z $library ]] || export MAKO_FRISTEN_LIB=$library
    exec cargo build --release --offline --quiet --bin fristen --target-dir "$folder"
}

# A file that is whole, with the time at which the build began.
put() { touch -r "$started" -- "$1.new" && mv -f -- "$1.new" "$1"; }

build_archive() {
    echo "fristen: beweist und übersetzt die Bibliothek, einmalig, etwa zehn Minuten ..." >&2
    build "die Bibliothek" prove
    cp -- "$root/crates/mako_fristen_c/out/libmako_fristen_c.a" "$archive.new" && put "$archive" &&
        echo "${crates[*]#"$root/"}" >"$proved.new" && put "$proved" ||
        unavailable "die Bibliothek ließ sich nicht ablegen."
}

build_program() {
    echo "fristen: übersetzt das Programm, einmalig, einige Sekunden ..." >&2
    build "das Programm" compile
    echo "$library" >"$built.new" && put "$built" || unavailable "das Programm ließ sich nicht ablegen."
}

# What ./fristen looks at the next time, with the folders that are newer where one of these was removed.
remember() {
    local looked=("$root/host" "${host[@]}") folders=("${!number[@]}")
    [[ -n $library ]] || looked+=("$root/." "$root/crates" "${folders[@]/#/"$root/crates/"}" "${crates[@]}")
    { echo "$library" && printf '%s\n' "${looked[@]#"$root/"}"; } >"$seen.new" && put "$seen"
}

# Waits while another call builds. Where this one may write nothing, it can run what is up to date.
lock() {
    { mkdir -p -- "$target/host" "$target/staticlib" && exec 9>"$target/fristen.lock"; } 2>/dev/null || return
    command -v flock >/dev/null && ! flock -w 1 9 || return 0
    echo "fristen: wartet, bis ein anderer Aufruf fertig gebaut hat ..." >&2
    wait_for flock 9 >/dev/null
}

trap 'interrupted HUP' HUP
trap 'interrupted INT' INT
trap 'interrupted TERM' TERM
if ! lock; then
    find_sources
    ! archive_is_old && ! program_is_old || unavailable "$target lässt sich nicht beschreiben."
    return
fi
locked=1
begin
if archive_is_old || program_is_old; then
    # Both tools are looked for before one of them works for minutes.
    ! archive_is_old || need rt "die Bibliothek"
    need cargo "das Programm"
    ! archive_is_old || build_archive
    ! program_is_old || build_program
    # What has been changed meanwhile is for the next call to build.
    begin
fi
archive_is_old || program_is_old || remember
clean
exec 9>&-
trap - HUP INT TERM
