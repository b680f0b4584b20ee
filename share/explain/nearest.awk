# Prints the word of the input that is nearest to `word`, if one is within two changes (three for long words).
function least(a, b, c) { return a < b ? (a < c ? a : c) : (b < c ? b : c) }

# How many letters have to be put in, taken out, changed or swapped with the next.
function distance(a, b,    i, j, row) {
  for (i = 0; i <= length(a); i++) d[i, 0] = i
  for (j = 0; j <= length(b); j++) d[0, j] = j
  for (i = 1; i <= length(a); i++) for (j = 1; j <= length(b); j++) {
    d[i, j] = least(d[i-1, j] + 1, d[i, j-1] + 1, d[i-1, j-1] + (substr(a, i, 1) != substr(b, j, 1)))
    if (i > 1 && j > 1 && substr(a, i, 1) == substr(b, j-1, 1) && substr(a, i-1, 1) == substr(b, j, 1))
      d[i, j] = least(d[i, j], d[i-2, j-2] + 1, d[i, j])
  }
  return d[length(a), length(b)]
}

{ far = index($0, word) == 1 ? 0 : distance(tolower(word), $0); if (best == "" || far < score) { best = $0; score = far } }
END { if (best != "" && score <= (length(word) > 5 ? 3 : 2) && score < length(word)) print best }
