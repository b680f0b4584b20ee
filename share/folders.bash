# Folders among the data. The launcher reads this file only if a word ends with a slash.

# take_folders COMMAND WORD..: the words in the list `taken`, with all text files below a folder in its place: `.md` and
# `.html`, in the order of their bytes, but none whose name, or a folder's on the way to it, begins with a dot.
take_folders() {
  local word before open=1 file files
  taken=()
  # how many operands come before the data
  case ${1-} in
    page | build | replay) before=3 ;;
    serve | lint | check) before=2 ;;
    explain) before=1 ;;
    data) before=0 ;;
    *) before=$# ;;
  esac
  while [ $# -gt 0 ]; do
    word=$1
    shift
    if [ ${#taken[@]} -eq 0 ]; then
      taken+=("$word")
      continue
    fi
    case $open$word in
      1--) open= ;;
      1--lenient | 1--durable | 1--whole | 1--here | 1--*=*) ;;
      1--*)
        taken+=("$word")
        [ $# -gt 0 ] || return 0
        word=$1
        shift
        ;;
      *)
        before=$((before - 1))
        if [ "$before" -lt 0 ] && [[ $word = */ ]] && [ -d "$word" ]; then
          files=()
          while IFS= read -r -d '' file; do files+=("$file"); done < <(
            find -L "${word%"${word##*[!/]}"}" -mindepth 1 -name '.*' -prune -o -type f \( -name '*.md' -o -name '*.html' \) -print0 | LC_ALL=C sort -z
          )
          # (without any the program says that it can't read the folder)
          [ ${#files[@]} -eq 0 ] || { taken+=("${files[@]}") && continue; }
        fi
        ;;
    esac
    taken+=("$word")
  done
}
