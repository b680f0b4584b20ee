# Prints the meaning of a refusal, from the table of refusals in docs/FORMATS.md. Variable: `number`.
BEGIN { FS = " [|] " }
$1 == "| " number && NF >= 4 { gsub(/\\[|]/, "|", $4); gsub(/\\\\/, "\\", $4); print $4; exit }
