# `strudel new DIR`: a small site to begin with.

# Copies the site to a folder that isn't there yet.
make_site() {
  case ${1-} in
    "" | --help | -h)
      echo "usage: strudel new DIR"
      echo
      echo "Makes a small site to begin with: data, a query, templates, a style sheet and a README."
      [ -n "${1-}" ]
      return $(($? * 2))
      ;;
  esac
  if [ $# -gt 1 ]; then
    echo "strudel: new takes one folder" >&2
    return 2
  elif [ -e "$1" ] || [ -L "$1" ]; then
    echo "strudel: $1 is there already, and is left as it is" >&2
    return 5
  elif ! cp -R -- "$top/share/new" "$1"; then
    echo "strudel: $1 can't be made" >&2
    return 5
  fi
  case $1 in -*) set -- "./$1" ;; esac
  printf 'made %s. Now:\n  cd %s\n  strudel build q.struql t.tmpl out books.csv\n' "$1" "$1"
}
