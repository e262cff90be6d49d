# Prints the code of .rt files, a line 'CRATE FILE:LINE:code' for each that has some, without what the prover reads and no machine
# runs: comments, contracts (`requires { .. }` and `ensures { .. }` in the head of a function) and `ghost use ..;`. All else that
# stands there counts as code. Where that can't be told, since braces or a comment may not be ones, it says so and ends in status 1.

function odd(why) { print "not understood, " why ": " FILENAME ":" FNR ": " $0 > "/dev/stderr"; wrong = 1 }

# what is left of a line behind the brace that closes a contract; where none does, the next line goes on in it
function behind(text,    i, c) {
    for (i = 1; i <= length(text); i++) {
        c = substr(text, i, 1)
        if (c == "{") braces++
        if (c == "}" && --braces == 0) return substr(text, i + 1)
    }
    return ""
}

FNR == 1 {
    if (braces || ghost) odd("a contract or a ghost use of the file before has no end")
    braces = ghost = head = 0
    n = split(FILENAME, part, "/")
    place = part[2] " " part[n]
}
ghost && /^ *(ghost|use|pub|mod|fn|const|#)/ { odd("a ghost use of a line before has no end") }
/^ *ghost use / { ghost = 1 }
head && /^ *(requires|ensures)( [a-z0-9_]+)? *\{/ { contract = 1 }
(ghost || contract) && /\/\/|--/ { odd("a comment in what the prover reads") }
{ sub(/\/\/.*/, "") }
ghost { if (!sub(/^[^;]*;/, "")) next; ghost = 0 }
contract { $0 = behind($0); contract = braces > 0 }
/"/ { odd("a text") }
/(^| )fn / { head = 1 }
/[{};] *$/ { head = 0 }
{ sub(/ *$/, "") }
$0 != "" { print place ":" FNR ":" $0 }
END { if (braces || ghost) odd("a contract or a ghost use has no end"); exit wrong }
