# Finds a place in a JSON file: prints the byte, from 0, of the value at a pointer, or of the first fault with what is wrong.
# Variable: `pointer`, as /0/price, or "fault". Run in the C locale.

function fail(why) { if (fault < 0) { fault = i - 1; reason = why } }

# The byte at i, through a piece of the text: long texts are slow to cut in some awks.
function byte() {
  if (i < base || i >= base + 256) { base = i; piece = substr(s, base, 256) }
  return substr(piece, i - base + 1, 1)
}

function blanks() { while (i <= size && index(" \t\r\n", byte())) i++ }

# A quoted text from its quote on; the simple escapes are taken out.
function quoted(    c, text) {
  i++
  while (fault < 0) {
    c = byte()
    if (c == "\"") { i++; return text }
    if (i > size) { fail("a text that is never closed"); return "" }
    if (c < " ") { fail("a line end or another control character within a text: write \\n for a line end"); return "" }
    if (c == "\\") {
      i++
      c = byte()
      if (i > size || !index("\"\\/bfnrtu", c)) { i--; fail("a backslash before a character that has no escape"); return "" }
      if (!index("\"\\/", c)) c = "\\" c
    }
    text = text c
    i++
  }
}

function key_of(text) { gsub(/~/, "~0", text); gsub(/\//, "~1", text); return text }

function number(    rest) {
  rest = substr(s, i, 400)
  if (!match(rest, /^-?(0|[1-9][0-9]*)(\.[0-9]+)?([eE][-+]?[0-9]+)?/)) { fail("a number that isn't written so in JSON"); return }
  i += RLENGTH
  if (byte() ~ /[0-9.eE+-]/) fail("a number that isn't written so in JSON")
}

function value(path, depth,    c, key, count) {
  if (fault >= 0) return
  blanks()
  if (path == pointer) found = i - 1
  if (depth > 127) { fail("more than 127 lists and objects one within another"); return }
  c = byte()
  if (i > size) { fail("the file ends where a value has to be"); return }
  if (c == "\"") { quoted(); return }
  if (c == "{") {
    i++; blanks()
    if (byte() == "}") { i++; return }
    while (fault < 0) {
      blanks()
      if (byte() != "\"") { fail(byte() == "}" ? "a comma before the closing brace" : "a key has to be here, in double quotes"); return }
      key = quoted(); blanks()
      if (byte() != ":") { fail("a colon has to be here, after the key"); return }
      i++
      value(path "/" key_of(key), depth + 1); if (fault >= 0) return
      blanks(); c = byte()
      if (c == ",") { i++; continue }
      if (c == "}") { i++; return }
      fail(i > size ? "the file ends within an object" : "a comma or a closing brace has to be here"); return
    }
  }
  if (c == "[") {
    i++; blanks()
    if (byte() == "]") { i++; return }
    while (fault < 0) {
      blanks()
      if (byte() == "]") { fail("a comma before the closing bracket"); return }
      value(path "/" count++, depth + 1); if (fault >= 0) return
      blanks(); c = byte()
      if (c == ",") { i++; continue }
      if (c == "]") { i++; return }
      fail(i > size ? "the file ends within a list" : "a comma or a closing bracket has to be here"); return
    }
  }
  if (c ~ /[-0-9]/) { number(); return }
  if (substr(s, i, 4) == "true" || substr(s, i, 4) == "null") { i += 4; return }
  if (substr(s, i, 5) == "false") { i += 5; return }
  fail(c == "'" ? "texts are in double quotes in JSON" : "a value has to be here: a text in double quotes, a number, true, false, null, a list or an object")
}

{ lines[NR] = $0 }
END {
  for (n = 1; n <= NR; n++) part = part lines[n] "\n"
  sub(/[ \t\r\n]+$/, "", part)
  s = part; size = length(s); i = 1; base = 1; piece = substr(s, 1, 256); fault = -1; found = -1
  if (substr(s, 1, 3) == "\357\273\277") i = 4
  value("", 0)
  if (fault < 0) { blanks(); if (i <= size) fail("something comes after the whole value") }
  if (pointer == "fault") { if (fault >= 0) print fault, reason }
  else if (found >= 0) print found
}
