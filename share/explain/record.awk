# Shows a record of a CSV file: FILE:LINE, how many fields it has next to the header, and its text.
# Variables: `file`; `record`, its number from 0, which is the header; `column`, a field of the header from 0, or -1; `told`;
# `plain`, 1 where bytes beyond ASCII aren't shown; `lenient`, 1 where the file was read by the lenient rules.

# How many fields are in a record, and where each begins.
function fields(text,    i, c, count, quoted) {
  count = 1
  begins[0] = 0
  for (i = 1; i <= length(text); i++) {
    c = substr(text, i, 1)
    if (c == "\"") quoted = !quoted
    else if (c == between && !quoted) begins[count++] = i
  }
  return count
}

function quotes(text) { return gsub(/"/, "", text) }

function short(text) {
  gsub(/\n.*/, " ...", text)
  gsub(/[\001-\010\013-\037\177]/, "?", text)
  if (plain) gsub(/[\200-\377]/, "?", text)
  return length(text) > 120 ? substr(text, 1, 110) "..." : text
}

function show(    has, under) {
  has = fields(text)
  if (column >= 0) {
    under = short(substr(text, 1, begins[column]))
    gsub(/[\200-\277]/, "", under)
    gsub(/[^\t]/, " ", under)
    printf "%s:%d: %s\n  %s\n  %s^\n", file, line, told, short(text), under
  } else {
    printf "%s:%d: %s\n", file, line, told
    if (number > 0 && has != header) printf "it has %d field%s, and the header has %d:\n", has, has == 1 ? "" : "s", header
    printf "  %s\n", short(text)
    if (number > 0 && has != header && names ~ /;/ && !lenient) print "The header has semicolons: with --lenient they separate the fields, if it has no comma."
  }
}

# What separates the fields of a text with this header: by the lenient rules, if it has no comma, its first semicolon or tab.
function separator(text) {
  if (!lenient || text ~ /,/ || !match(text, /[;\t]/)) return ","
  return substr(text, RSTART, 1)
}

BEGIN { number = -1; open = 0; between = "," }
NR == 1 { sub(/^\357\273\277/, "") }
{
  sub(/\r$/, "")
  if (!open && $0 == "") next
  if (open) text = text "\n" $0; else { text = $0; line = NR }
  open = (open + quotes($0)) % 2
  if (open) next
  number++
  if (number == 0) { between = separator(text); header = fields(text); names = text }
  if (number == record) { show(); shown = 1; exit }
}
END { if (!shown && open && number + 1 == record) { number++; show() } }
