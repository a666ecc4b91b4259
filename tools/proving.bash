# shellcheck shell=bash
# Functions of the script `ivy`, which prove the crates that a program needs, several side by side.
#
# The kit's prover is called as `rt lib` and `rt run` call it, but that a library that is proved for the first time is
# written without its proofs, by its statements alone: then a check above reads half as much and takes a fifth less. `rt`
# does so too where it proves a whole repository, and there alone. Such a library lies in `out/proved`, where `rt` does not
# look for one.
# The script sets `root` and `name`, its program.

crates=$root/crates
# How many crates are to be proved, and how many are.
all=0
proved=0

say() {
    echo "${name-ivy}: $*" >&2
}

fail() {
    say "$@"
    exit 4
}

tell_proved() {
    proved=$((proved + 1))
    say "$1 ($proved of $all, $((SECONDS / 60)) min)"
}

# The kit's folder, and its line of identity.
find_kit() {
    kit=$(dirname "$(rt doc)") && identity=$(rt version) || fail "the kit's rt has to be on the PATH"
}

# Of each crate: its line in crates.txt, the crates of the repository that this names, and all below
# it, each after those that it names.
declare -A line=() uses=() below=()

read_list() {
    local text name word
    while read -r text || [[ -n $text ]]; do
        text=${text%%#*}
        [[ -z $text ]] || line[${text%%[ :]*}]=$text
    done <"$root/crates.txt"
    for name in "${!line[@]}"; do
        uses[$name]=
        for word in ${line[$name]#*:}; do
            [[ -z ${line[$word]-} ]] || uses[$name]+=" $word"
        done
    done
}

find_below() {
    local used it found=" "
    [[ -z ${below[$1]-} ]] || return 0
    for used in ${uses[$1]}; do
        find_below "$used"
        for it in ${below[$used]} "$used"; do
            [[ $found == *" $it "* ]] || found+="$it "
        done
    done
    below[$1]=$found
}

# Whether a file is newer than all sources of a crate and of those below it.
is_newest() {
    local it folders=()
    [[ -f $1 && ! $root/crates.txt -nt $1 ]] || return 1
    for it in ${below[$2]} "$2"; do
        folders+=("$crates/$it")
    done
    [[ -z $(find "${folders[@]}" -name out -prune -o -type f -newer "$1" -print -quit) ]]
}

# The sum of all that a check of a crate reads: the kit, and the sources of the crate and of those below it. It is kept
# beside the library.
sum_of() {
    local it part folders=()
    {
        echo "$identity"
        for it in ${below[$1]} "$1"; do
            echo "${line[$it]}"
            for part in src specs proofs; do
                [[ ! -d $crates/$it/$part ]] || folders+=("$it/$part")
            done
        done
        cd "$crates"
        find "${folders[@]}" -type f -print0 | LC_ALL=C sort -z | xargs -0 sha256sum
    } | sha256sum
}

is_built() {
    local kept=$crates/$1/out/proved/sum
    [[ -f $kept && $(<"$kept") == "$(sum_of "$1")" ]]
}

# Takes over the library of a crate that `rt ci` has just made of these very sources, where it left one: it is proved, and
# written by its statements alone.
take_over() {
    local made=$crates/$1/out/rlib/$1.rlib kept=$crates/$1/out/proved
    [[ -d $made ]] && ! is_built "$1" || return 0
    rm -rf "$kept"
    mkdir -p "$kept"
    cp -r "$made" "$kept/$1.rlib"
    sum_of "$1" >"$kept/sum"
}

# The processors that this process may use, or fewer by the quota of its group.
processors() {
    local found quota=max period=1
    found=$(nproc)
    [[ ! -r /sys/fs/cgroup/cpu.max ]] || read -r quota period </sys/fs/cgroup/cpu.max
    [[ $quota == max ]] || ((quota / period >= found)) || found=$((quota / period))
    echo $((found > 0 ? found : 1))
}

# The gigabytes of memory that are free, on the machine and for the process's group.
free_memory() {
    local found most=max used
    found=$(awk '/^MemAvailable:/ { print int($2 / 1000000) }' /proc/meminfo)
    [[ ! -r /sys/fs/cgroup/memory.max ]] || read -r most </sys/fs/cgroup/memory.max
    if [[ $most != max ]]; then
        used=$(awk '$1 == "anon" { print $2 }' /sys/fs/cgroup/memory.stat)
        most=$(((most - used) / 1000000000))
        ((most >= found)) || found=$most
    fi
    echo "$found"
}

# The lines of code of a crate.
lines_of() {
    find "$crates/$1/src" -type f -exec cat {} + | wc -l
}

# The lines of its proofs. There may be none.
proof_lines_of() {
    find "$crates/$1" -path '*/proofs/*' -type f -exec cat {} + | wc -l
}

# A crate with fewer is lemmas alone, or little else.
few_lines=120

# How many jobs the check of a crate may have, at most so many. Each job begins with all that lies below, so
# where there is little code four jobs take twice the processor time of one, and no less by the clock.
jobs_of() {
    if (($(lines_of "$1") < few_lines)); then
        echo 1
    else
        echo "$2"
    fi
}

# The length of the longest way from a crate up to the program, of the crates that are to be proved, in lines of
# code, of which a check takes as long to begin as about 150, and to check as many as four lines of proofs are.
declare -A way=()

# Takes those crates, each after those below it.
find_ways() {
    local list=("$@") at crate used lines
    for ((at = ${#list[@]} - 1; at >= 0; at--)); do
        crate=${list[at]}
        lines=$(($(lines_of "$crate") + $(proof_lines_of "$crate") / 4 + 150))
        way[$crate]=$((${way[$crate]-0} + lines))
        for used in ${below[$crate]}; do
            ((${way[$used]-0} >= way[$crate])) || way[$used]=${way[$crate]}
        done
    done
}

# The words for the prover about a crate: its file, what it names, and where what lies below is found. They go into the
# list `words`.
find_words() {
    local it file=src/lib.rt rlib
    [[ ! -f $crates/$1/src/main.rt ]] || file=src/main.rt
    words=(--crate-name "$1" "$file" --extern "std=$kit/rlibs/std.rlib" -L "dependency=$kit/rlibs")
    for it in ${line[$1]#*:}; do
        rlib=$kit/rlibs/$it.rlib
        [[ -z ${line[$it]-} ]] || rlib=$crates/$it/out/proved/$it.rlib
        words+=(--extern "$it=$rlib")
    done
    for it in ${below[$1]}; do
        words+=(-L "dependency=$crates/$it/out/proved")
    done
    words+=(--antt-project "$kit/rattle/logic/antt-project.json" --logic-built "$kit/logic_built" --links "$1=")
}

# Whether a check is to keep its work for the next one: of a crate that was proved before, and has changed since. Such a
# library has its proofs, since the prover does not keep work and write statements alone in one call.
keeps_work() {
    [[ -d $crates/$1/out/incremental || -f $crates/$1/out/proved/sum ]]
}

# Becomes the prover in a crate's folder, with so many jobs and these further words. Its log lies in the script's folder.
build_crate() {
    local words
    find_words "$1"
    mkdir -p "$crates/$1/out/proved"
    cd "$crates/$1"
    exec "$kit/bin/rattle" build "${words[@]}" --jobs "$2" "${@:3}" </dev/null >"$room/$1.log" 2>&1
}

# The process of each crate that is being proved, and how many jobs it has.
declare -A running=() given=()

# Starts the check of a library with so many jobs.
start() {
    local how=(--statements)
    ! keeps_work "$1" || how=(--incremental out/incremental)
    rm -f "$crates/$1/out/proved/sum"
    sum_of "$1" >"$room/$1.sum"
    build_crate "$1" "$2" "${how[@]}" -o "out/proved/$1.rlib" &
    running[$1]=$!
    given[$1]=$2
}

stop_running() {
    local crate
    for crate in "${!running[@]}"; do
        kill "${running[$crate]}" 2>/dev/null || true
    done
    wait
}

# A check touches 1 to 3 GB once: huge pages spare it a twentieth of its time, where the machine has some.
export GLIBC_TUNABLES=${GLIBC_TUNABLES-glibc.malloc.hugetlb=1}

# How many jobs run side by side in all: each takes 1 to 3 GB.
plan() {
    local memory
    memory=$(free_memory)
    jobs=$(processors)
    ((memory / 3 >= jobs)) || jobs=$((memory / 3))
    ((jobs > 0)) || jobs=1
}

# Proves crates, given each after those below it.
prove() {
    local crate left=()
    local -A open=()
    find_ways "$@"
    for crate; do
        open[$crate]=yes
    done
    mapfile -t left < <(for crate; do echo "${way[$crate]} $crate"; done | sort -rn | cut -d ' ' -f 2)
    while ((${#open[@]})); do
        start_ready
        sleep 0.2
        end_ended
    done
}

# Finds what can begin, the longest way first.
find_ready() {
    local crate it
    ready=()
    for crate in "${left[@]}"; do
        [[ ${open[$crate]-} && -z ${running[$crate]-} ]] || continue
        for it in ${below[$crate]}; do
            [[ -z ${open[$it]-} ]] || continue 2
        done
        ready+=("$crate")
    done
}

# Whether a crate has nearly as long a way as the first that is ready: the others wait for it too.
is_near() {
    ((way[$1] * 100 >= way[${ready[0]}] * 97))
}

# Starts what can begin, as long as jobs are free. One job does for most: the end of a check is one job's work, which
# takes half of the time where much lies below, and two processors may be threads of one core. What the others wait for
# has two, and three where nothing else can run.
start_ready() {
    local crate at free=$jobs share ready
    for crate in "${!running[@]}"; do
        free=$((free - given[$crate]))
    done
    find_ready
    for at in "${!ready[@]}"; do
        ((free > 0)) || break
        share=1
        ((jobs < 2)) || ! is_near "${ready[at]}" || share=2
        ((${#ready[@]} > 1 || free < 3)) || share=3
        share=$(jobs_of "${ready[at]}" "$share")
        free=$((free - share))
        start "${ready[at]}" "$share"
    done
}

# Takes what has ended. A crate that is refused ends all, with its log.
end_ended() {
    local crate status
    for crate in "${!running[@]}"; do
        ! kill -0 "${running[$crate]}" 2>/dev/null || continue
        status=0
        wait "${running[$crate]}" || status=$?
        unset "running[$crate]" "open[$crate]"
        if ((status != 0)); then
            cat "$room/$crate.log" >&2
            fail "$crate is not proved, so the program could not be built"
        fi
        [[ $(<"$room/$crate.sum") == "$(sum_of "$crate")" ]] || fail "sources changed while $crate was proved: run it again"
        mv "$room/$crate.sum" "$crates/$crate/out/proved/sum"
        tell_proved "$crate is proved"
    done
}
