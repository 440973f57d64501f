# Of the answers, a line for each report: how many ASes have their packets delivered at AS `attacker`.
# A report has no row for an AS that no packet reaches, and `loop` is the last row of a group.
BEGIN { FS = "|" }
$1 == "total" && $2 == "to " attacker { reached = $3 }
$1 == "total" && $2 == "loop" { print reached + 0; reached = 0 }
