# Reads docs/PROMISES.md and says of each row of its tables, with '+' or '-', whether it can be used: five cells, none empty and
# no longer than a screen; the call's cell names a call and the edit's cell an edit, or says why there is none ('none: ..').
/^## / { section = substr($0, 4) }
!/^\|/ { head = 0; next }
/^\| sentence \| definition \| call \| statement \| edit \|$/ { head = 1; next }
/^\|(---\|)+$/ { next }
{
    n = split($0, cell, / *\| */)
    what = "a row of '" section "', '" substr(cell[2], 1, 60) "',"
    fault = ""
    if (!head) fault = "stands under other columns than sentence, definition, call, statement, edit"
    else if (n != 7) fault = "has " n - 2 " cells"
    else if (length($0) > 600) fault = "has " length($0) " octets, 600 are the most"
    for (i = 2; i <= 6; i++) if (n == 7 && cell[i] !~ /[^ ]/) fault = "has an empty cell"
    if (n == 7 && fault == "" && cell[4] !~ /^none: |::/) fault = "names no call, and not why"
    if (n == 7 && fault == "" && cell[6] !~ /^none: |`[a-z0-9_]+\/[a-z0-9_]+`/) fault = "names no edit, and not why"
    print (fault == "" ? "+ " what FNR : "- " what " " fault)
}
