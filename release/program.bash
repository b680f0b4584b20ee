# Which program the launcher runs in a checkout: the released one, or with `--build` the one that is proved and built here. The
# launcher, release/make and release/verify read this file, with `top` set.

released=$top/release/strudel-x86_64-linux
built_here=$top/crates/strudel/out/strudel

# What the program is built from: the files that a proof reads, and the list of crates.
list_sources() {
  (
    cd "$top" || exit
    shopt -s nullglob
    printf 'crates.txt\0'
    find crates/*/src crates/*/specs crates/*/proofs -type f \( -name '*.rt' -o -name '*.antt' \) -print0 | LC_ALL=C sort -z
  )
}

# sum_of_sources KIT: the checksum of the names and contents of all sources, and of the kit's line.
sum_of_sources() {
  local sum
  sum=$(
    set -o pipefail
    cd "$top" && {
      list_sources | xargs -0 sha256sum -- || echo unread
      echo "$1"
    } | sha256sum
  ) && echo "${sum%% *}"
}

# Whether the released program is what was made, for this system, from these sources.
is_release_of_sources() {
  local name value kit='' sources=''
  [ -x "$released" ] && [ "$HOSTTYPE" = x86_64 ] && [[ $OSTYPE = linux-gnu* ]] || return 1
  [ -r "$top/release/built-from" ] || return 1
  while read -r name value; do
    case $name in
      sources) sources=$value ;;
      kit) kit=$value ;;
    esac
  done <"$top/release/built-from"
  (cd "$top/release" && sha256sum --status -c strudel-x86_64-linux.sha256 2>/dev/null) || return 1
  [ -n "$sources" ] && [ "$sources" = "$(sum_of_sources "$kit")" ]
}

# Whether a source of the program is newer than the release. That is seen from the times at which code was last changed, against
# `release/.fits` or, while there is none, the release's `built-from`, so a call costs some milliseconds. Only after a change the checksums
# decide, once: `release/.fits` keeps their answer. (Files are compared by the time of their last change of any kind, which no
# copying sets back.)
sources_are_newer() {
  local stamp=$top/release/.fits answer=yes since
  since=$stamp
  [ -e "$stamp" ] || since=$top/release/built-from
  # (a release that came after the answer is asked about again)
  if [ -z "$(exec find "$top"/{release/built-from,crates.txt,crates/*/src} -cnewer "$since" -print -quit 2>&1)" ]; then
    [ "$since" != "$stamp" ] || read -r answer <"$stamp"
  else
    # (its time is before all that is read for it)
    { : >"$stamp.time.$$" && touch -d '-2 seconds' "$stamp.time.$$"; } 2>/dev/null
    is_release_of_sources || answer=no
    { echo $answer >"$stamp.$$" && touch -r "$stamp.time.$$" "$stamp.$$" && mv -f "$stamp.$$" "$stamp"; } 2>/dev/null
    rm -f "$stamp.$$" "$stamp.time.$$" 2>/dev/null
  fi
  [ "$answer" != yes ]
}

# released_version: the version of the released program, as release/make wrote it.
released_version() {
  local name value
  while read -r name value; do [ "$name" != version ] || echo "$value"; done <"$top/release/built-from"
}

# The crates that the program is made of, itself the last.
list_crates() {
  awk '
    function visit(name, names, count, at) {
      if (seen[name]++ || !(name in uses)) return
      count = split(uses[name], names, " ")
      for (at = 1; at <= count; at++) visit(names[at])
      print name
    }
    { sub(/#.*/, "") }
    /:/ { at = index($0, ":"); split($0, words, /[ :]+/); uses[words[1]] = substr($0, at + 1) }
    END { visit("strudel") }
  ' "$top/crates.txt"
}

# clock SECONDS: as 1:05, or 1:02:05.
clock() {
  if [ "$1" -ge 3600 ]; then
    printf '%d:%02d:%02d' $(($1 / 3600)) $(($1 / 60 % 60)) $(($1 % 60))
  else
    printf '%d:%02d' $(($1 / 60)) $(($1 % 60))
  fi
}

# show_progress PROCESS: once a second, while that process runs, how many crates are proved, and how long the last one took.
show_progress() {
  local crates proved=-1 count name newest last='' began=$SECONDS
  mapfile -t crates < <(list_crates)
  while kill -0 "$1" 2>/dev/null; do
    count=0 newest=
    for name in "${crates[@]}"; do
      [ -e "$top/crates/$name/out/rlib/stamp" ] || continue
      count=$((count + 1))
      if [ -z "$newest" ] || [ "$top/crates/$name/out/rlib/stamp" -nt "$top/crates/$newest/out/rlib/stamp" ]; then newest=$name; fi
    done
    if [ "$count" -ne "$proved" ]; then
      [ "$proved" -lt 0 ] || last="; the last, $newest, took $(clock $((SECONDS - began)))"
      proved=$count began=$SECONDS
    fi
    printf '\r\033[K%s' "$proved of ${#crates[@]} crates proved, $(clock $SECONDS)$last" >&2
    sleep 1
  done
}

# Proves and builds the program, with each crate that it is made of.
build_program() {
  local log watcher=''
  echo "strudel: proving and building the program; from nothing that takes hours of one processor" >&2
  log=$(mktemp) || return 70
  SECONDS=0
  trap 'trap - INT; rm -f "$log"; printf "\nstrudel: not built; the next start goes on with what is proved by now\n" >&2; kill -INT $$' INT
  if [ -t 2 ]; then
    show_progress $$ &
    watcher=$!
  fi
  (cd "$top/crates/strudel" && rt run -- </dev/null) >"$log" 2>&1
  trap - INT
  if [ -n "$watcher" ]; then
    kill "$watcher" 2>/dev/null
    wait "$watcher" 2>/dev/null
    printf '\r\033[K' >&2
  fi
  if [ ! -x "$built_here" ]; then
    cat "$log" >&2
    rm -f "$log"
    echo "strudel: not proved or not built, after $(clock $SECONDS)" >&2
    return 70
  fi
  rm -f "$log"
  echo "strudel: proved and built in $(clock $SECONDS)" >&2
}

# Why the released program can't run here.
tell_missing() {
  {
    echo "strudel: there is no program to run"
    if [ ! -e "$released" ]; then
      echo "This checkout has no released program (release/strudel-x86_64-linux)."
    else
      echo "The released program is for x86-64 Linux with glibc, and this system is $HOSTTYPE $OSTYPE."
    fi
    echo "Any one of these helps:"
    echo "  a checkout of a release as it was published, or its package or archive (\`git status\` shows what was changed here);"
    echo "  ./strudel --build, with the folder of \`rt\` in PATH: the program is proved and built, which takes more than an hour;"
    echo "  STRUDEL_PROGRAM=FILE, which names a program that is elsewhere."
  } >&2
}

# Sets `program` to the released one, and reports sources that are newer; ends with 69 if there is none for this system.
find_program() {
  program=$released
  if [ ! -x "$released" ] || [ "$HOSTTYPE" != x86_64 ] || [[ $OSTYPE != linux-gnu* ]]; then
    tell_missing
    return 69
  fi
  if sources_are_newer && [ -z "${STRUDEL_PLAIN:-}" ]; then
    echo "strudel: the sources are not those of this program ($(released_version)); ./strudel --build proves and builds them" >&2
  fi
}

# Proves and builds the sources, and sets `program` to what was built; ends with 69 without the kit, and with 70 if it isn't built.
find_built_program() {
  program=$built_here
  if ! command -v rt >/dev/null; then
    echo "strudel: the kit that proves and builds the program (\`rt\`) isn't in PATH" >&2
    return 69
  fi
  build_program
}
