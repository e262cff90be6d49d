# Reads what `objdump -dr --no-show-raw-insn` and then `objdump -r` print of x86-64 code, and goes from the functions of
# -v roots="A B" to all that they call or name, however deep. It prints a line for each of these:
#   reached FUNCTION N             a function, with its number of instructions
#   divides FUNCTION INSTRUCTION   a divide instruction: each of them has div or prem in its name
#   leaves FUNCTION TARGET         a call of what is not in the file, as of a divide in the compiler's library; or '*', a call or
#                                  jump to an address that is only known when it runs
# The jump table of a match is no such address: it is read, and what its entries name is gone to. It counts as one where its four
# instructions stand in a row: lea TABLE(%rip),B; movslq (B,I,4),R; add B,R; jmp *R. Behind the first there may be mov I,I.

function calls(target) { edges[name] = edges[name] " " target }

# a section that is named stands for all functions in it; one of data for all that its entries name
function go(from, target,    n, i, part) {
    if (!(target in count) && !(target in inside) && !(target in entries)) {
        if (target !~ /^\./) print "leaves", from, target
        return
    }
    if (seen[target]++) return
    if (target in count) print "reached", target, count[target]
    printf "%s", divides[target]
    n = split(through[target], part)
    for (i = 1; i <= n; i++) if (!(part[i] in entries)) print "leaves", target, "*"
    n = split(edges[target] " " inside[target] " " entries[target], part)
    for (i = 1; i <= n; i++) go(target, part[i])
}

/^Disassembly of section / { section = name = $4; sub(/:$/, "", section) }
/^[0-9a-f]+ <.*>:$/ { name = $2; gsub(/[<>]|:$/, "", name); count[name] = 0; inside[section] = inside[section] " " name; step = 0 }

# an instruction: '  14c:  div  %ebx', '  3b:  call  40 <NAME+0x40>'
/^ +[0-9a-f]+:\t/ {
    count[name]++
    text = $0; sub(/^[^\t]*\t/, "", text)
    operation = text; sub(/ *[%$*(<].*/, "", operation)
    # how far the four instructions of a jump table have been met
    n = split(text, part, /[ ,()]+/)
    if (text ~ /^lea +0x0\(%rip\),%/) { step = 1; base = part[4]; sub(/ .*/, "", base); table = "" }
    else if (step == 1 && table != "" && text ~ /^movslq \(%r[a-z0-9]+,%r[a-z0-9]+,4\),%/ && part[2] == base) { step = 2; sum = part[5] }
    else if (step == 2 && text ~ /^add +%/ && part[2] == base && part[3] == sum) step = 3
    else if (step == 3 && text ~ /^(notrack )?jmp +\*%/ && part[n] == "*" sum) { step = 0; through[name] = through[name] " " table; next }
    else if (step != 1 || text !~ /^mov +%e/ || part[2] != part[3] || part[2] == "%e" substr(base, 3)) step = 0
    if (operation ~ /div|prem/) divides[name] = divides[name] "divides " name " " text "\n"
    if (operation !~ /(^| )(call|j[a-z]+|loop)/) next
    if (text ~ /\*/) calls("*")
    if (match(text, /<[^>]*>/)) {
        target = substr(text, RSTART + 1, RLENGTH - 2)
        sub(/\+0x[0-9a-f]+$/, "", target)
        if (target != name) calls(target)
    }
}

# what the linker puts in: '  3c: R_X86_64_PLT32  .text.burst::beat-0x4'
/^\t+[0-9a-f]+: R_/ {
    target = $NF; sub(/[-+]0x[0-9a-f]+$/, "", target); calls(target)
    if (step == 1 && target ~ /^\.rodata/) table = target
}

# the same of data: '0000000000000004 R_X86_64_PC32     .text.burst::beat+0x00000000000000a5'
/^RELOCATION RECORDS FOR \[/ { section = $4; gsub(/^\[|\]:$/, "", section); name = "" }
section ~ /^\.(rodata|data)/ && /^[0-9a-f]+ R_/ { target = $3; sub(/[-+]0x[0-9a-f]+$/, "", target); entries[section] = entries[section] " " target }

END { n = split(roots, part); for (i = 1; i <= n; i++) go("roots", part[i]) }
