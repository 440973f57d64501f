# Of the rows of sweeps, a line for each number of adopters: that number, and of the ASes whose packets are delivered at AS `attacker`
# the mean of all trials, the least and the most.  `loop` is the last row of a trial.
BEGIN { FS = "|" }
$3 == "to " attacker { reached = $4 }
$3 == "loop" {
    if (!trials[$1]++ || reached < least[$1]) least[$1] = reached + 0
    if (reached > most[$1]) most[$1] = reached
    sum[$1] += reached
    reached = 0
}
END { for (k in trials) print k, sum[k] / trials[k], least[k], most[k] + 0 }
