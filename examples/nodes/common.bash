# What the scripts of this folder share. They are to be sourced by a script that has set `root`.
#
# A script has a folder, `room`, in which lie the nodes' logs, I.log, and what they told, I.err. It goes with the script, and
# so does whatever runs: `carrying` has the processes that hand lines on, `serving` the nodes.

ivynode=${IVYNODE:-$root/ivynode}
room=$(mktemp -d)
carrying=() serving=()

clean_up() {
    ((${#carrying[@]} + ${#serving[@]} == 0)) || kill "${carrying[@]}" "${serving[@]}" 2>/dev/null || true
    rm -rf "$room"
}
trap clean_up EXIT

fail() {
    echo "$0: $*" >&2
    exit 1
}

# How many programs a file has.
nodes_of() {
    grep -c '^[[:space:]]*node[[:space:]]' "$1"
}

# Starts a node, which hears what is read from one fifo and speaks into another. This script keeps that one open, so the
# node may speak until its input ends.
serve_node() {
    local file=$1 node=$2 manager=$3 kept
    exec {kept}<>"$5"
    "$ivynode" run "$file" "$node" --manager "$manager" --log "$room/$node.log" <"$4" >"$5" 2>"$room/$node.err" &
    serving+=($!)
}

# Waits until each node has told that its program has ended, for five minutes at most.
wait_for_programs() {
    local nodes=$1 tries=3000 node
    while ((tries-- > 0)); do
        for ((node = 0; node < nodes; node++)); do
            grep -q "^node $node ended$" "$room/$node.err" 2>/dev/null || break
        done
        ((node < nodes)) || return 0
        sleep 0.1
    done
    fail "the programs do not end"
}

# Ends what hands lines on, and so the input of each node. A node is done with its log once it has ended.
end_nodes() {
    local node
    kill "${carrying[@]}" 2>/dev/null || true
    carrying=()
    for node in "${serving[@]}"; do
        wait "$node" || fail "a node ended with status $?"
    done
    serving=()
}

# Prints what the nodes told, and joins their logs.
join_logs() {
    local file=$1 nodes=$2 node logs=()
    for ((node = 0; node < nodes; node++)); do
        cat "$room/$node.err" >&2
        logs+=("$room/$node.log")
    done
    "$ivynode" join "$file" "${logs[@]}"
}
