# Prints what looks like a tag of templates and is none, as `lint` tells it (149): the byte of each in the file, from 0, and
# its name, with the slash of a closing tag. A file that isn't one of templates has none. Run in the C locale.

BEGIN {
  split("SFMT SIF SFOR SINCLUDE SELSE SBODY SNOTE TEMPLATE LAYOUT FRAGMENT", tags, " ")
  for (i in tags) is_tag[tags[i]] = 1
}

{ text = text (NR > 1 ? "\n" : "") $0 }

END {
  start = text
  sub(/^\357\273\277/, "", start)
  sub(/^[ \t\r\n]+/, "", start)
  if (start !~ /^<(TEMPLATE|LAYOUT|FRAGMENT|SNOTE)[ \t\r\n>]/) exit
  count = split(text, parts, "<")
  at = length(parts[1])
  for (i = 2; i <= count; at += length(parts[i++]) + 1) {
    if (note) { note = parts[i] !~ /^\/SNOTE>/; continue }
    if (parts[i] ~ /^SNOTE>/) { note = 1; continue }
    if (!match(parts[i], /^\/?[A-Za-z]+/)) continue
    name = substr(parts[i], 1, RLENGTH)
    slash = sub(/^\//, "", name) ? "/" : ""
    if (name in is_tag) continue
    if (toupper(name) in is_tag) print at, slash name
    else if (name ~ /^S[A-Z]/ && name !~ /^(SAMP|SCRIPT|SEARCH|SECTION|SELECT|SLOT|SMALL|SOURCE|SPACER|SPAN|STRIKE|STRONG|STYLE|SUB|SUMMARY|SUP|SVG)/) print at, slash name
  }
}
