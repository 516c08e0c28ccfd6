# Turns the table of docs/REFUSALS.md into rows of C: the number, and what it means at the desk.
BEGIN { FS = " *[|] *" }
$2 ~ /^[0-9]+$/ && $6 != "-" {
    gsub(/\\/, "\\\\", $6)
    gsub(/"/, "\\\"", $6)
    printf "{%s, \"%s\"},\n", $2, $6
}
