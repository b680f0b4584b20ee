# Shows the place of a byte: FILE:LINE:COLUMN, that line of the file, and a caret under the place.
# Variables: `file`, its name; `at`, the byte from 0; `told`, what is said of the place. Run in the C locale.

# Characters are counted by the bytes that begin one in UTF-8.
function characters(text) { gsub(/[\200-\277]/, "", text); return length(text) }

# Control characters would act on the terminal.
function harmless(text) { gsub(/[\001-\010\013-\037\177]/, "?", text); return text }

function show(number, text, byte,    before, behind, under) {
  sub(/\r$/, "", text)
  before = harmless(substr(text, 1, byte))
  behind = harmless(substr(text, byte + 1))
  printf "%s:%d:%d: %s\n", file, number, characters(before) + 1, told
  if (length(before) > 72) { before = substr(before, length(before) - 60); sub(/^[\200-\277]+/, "", before); before = "..." before }
  if (length(behind) > 72) { behind = substr(behind, 1, 60); sub(/[\300-\377]?[\200-\277]*$/, "", behind); behind = behind "..." }
  under = before
  gsub(/[\200-\277]/, "", under)
  gsub(/[^\t]/, " ", under)
  printf "  %s%s\n  %s^\n", before, behind, under
}

NR == 1 && substr($0, 1, 3) == "\357\273\277" { $0 = substr($0, 4); if (at >= 3) at -= 3 }
{ if (at <= length($0)) { show(NR, $0, at); shown = 1; exit } at -= length($0) + 1; last = $0 }
END {
  if (!shown && at == 0) { printf "%s:%d:1: %s (the file ends here)\n", file, NR + 1, told }
}
