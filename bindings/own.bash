# Programs in Rattle for stress/bindings and stress/pointers, which source this where `top` and `out` are set. They are compiled as
# bindings/unproved.py does, in a minute, unless they are as they were.

in_rattle() { # in_rattle NAME WORD..: makes out/nodes/NAME
  local name=$1 sum made=$out/nodes
  shift
  mkdir -p "$made"
  sum=$({ rt version; cat "$top/crates.txt" "$top"/bindings/{unproved.py,own.bash}; find "$top/crates" "$top/stress/own" \
    \( -name '*.rt' -path '*/src/*' -o -name '*.rattle' \) -print0 | sort -z | xargs -0 cat; } | sha256sum)
  [[ ! -x $made/$name || $(cat "$made/$name.sum" 2>/dev/null) != "$sum" ]] || return 0
  rm -f "$made/$name.sum"
  python3 "$top/bindings/unproved.py" "$top" "$(dirname "$(rt doc)")" "$made/$name" "$@" && echo "$sum" >"$made/$name.sum"
}

# The node of stress/own, with 64 pages of 4,096 bytes in place of 4 of 256, so that others in its run may use pointers: its lock and
# its sum lie where the tests in C have them.
own_in_rattle() {
  local room status
  room=$(mktemp -d)
  cp -r "$top/stress/own" "$room/own"
  sed -i 's/pages: 4,/pages: 64,/; s/page_size: 256,/page_size: 4096,/; s/LINE_BYTES: usize = 1_024/LINE_BYTES: usize = 16_384/' \
    "$room/own/node.rattle"
  sed -i 's/Lock { addr: 256 }/Lock { addr: 81_920 }/; s/sum: 512,/sum: 86_016,/' "$room/own/works.rattle"
  in_rattle own "$room/own" ivy_model ivy_program ivy_moves ivy_calls ivy_sync ivy_texts example_programs ivy_logs ivy_join ivy_process
  status=$?
  rm -rf "$room"
  return $status
}
