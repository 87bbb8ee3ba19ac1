# Rounds and trials of the fits that were answered (oracle/FORMAT.md); their last words are converged, rounds, trials.
{
    n = split(substr($0, index($0, " = ") + 3), word, " ")
    if (word[1] != 0) { refused++; next }
    fits++
    trials = word[n]; rounds = word[n - 1]; converged += word[n - 2]; sum += trials
    if (trials > most) { most = trials; most_in = rounds }
    if (rounds > longest) longest = rounds
    if (rounds > 0 && trials == 240 * rounds) { full++; if (rounds > full_in) full_in = rounds }
}
END {
    printf "%d fits (%d refused), %d converged; trials: %.0f in the mean, at most %d (in %d rounds); ", fits, refused, converged, sum / fits, most, most_in
    printf "rounds: at most %d; 240 trials in every round: %d fits, of at most %d rounds\n", longest, full, full_in
}
