# How release/make and release/verify prove and build the program. Read with `top` set.
. "$top/release/program.bash"

stop() {
  echo "${0##*/}: $*" >&2
  exit 1
}

# Clones the last commit into FOLDER, after a look whether the checkout's sources are that commit's.
clone_commit() {
  [ -z "$(git -C "$top" status --porcelain -- crates crates.txt HANDLES)" ] || stop "crates/, crates.txt or HANDLES has changes that are in no commit"
  git clone -q "$top" "$1"
  git -C "$1" checkout -q --detach "$(git -C "$top" rev-parse HEAD)"
}

# Whether the kit's `rt ci` keeps what passes, for later runs.
kit_keeps() { [[ $(rt help 2>&1) == *--anew* ]]; }

# build_in FOLDER [--anew]: has the gate pass in the clone, and leaves its program there, stripped, in FOLDER/released.
# --anew takes nothing of what earlier runs on this machine proved.
build_in() {
  local folder=$1 kit last gate=(rt ci)
  shift
  kit=$(dirname "$(rt doc)")
  if [ "${1:-}" = --anew ]; then
    # (where nothing is kept, each run is one from nothing, and there is no such word)
    ! kit_keeps || gate+=(--anew)
  elif ! kit_keeps; then
    gate=(tools/gate)
  fi
  (cd "$folder" && "${gate[@]}") 2>&1 | tee "$folder.log" || stop "rt ci failed"
  last=$(tail -n 1 "$folder.log")
  [[ $last =~ ^[0-9]+\ passed,\ 0\ failed$ ]] || stop "rt ci ended with: $last"
  cp "$folder/crates/strudel/out/strudel" "$folder/released"
  # names of functions and the linker's remark: nothing that is loaded
  (exec -a llvm-strip "$kit/toolchain/bin/clang" --strip-all --remove-section=.comment "$folder/released") || stop "can't be stripped"
  [ "$("$folder/released" version | tail -n 1)" = "$(rt version)" ] || stop "the program names another kit than \`rt version\`"
}
