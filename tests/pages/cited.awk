# Reads the list of declared.awk, then pages, and looks up what the pages cite in backticks, each in the crate that it names:
#   `crate/Module.name`   a definition or law, and the words of '(field `x`)' or '(fields `x`, `y` and `z`)' behind it
#   `crate/W07`           a worked case, by its id
#   `crate::name`         what the crate hands out; `crate::module::name` where the file is not lib or main
# A line each: 'KIND + what is there' or 'KIND - what is wrong', KIND being name, field, case or call.
# A name without its crate is wrong; with -v anywhere=1 it is looked up in all crates, and what is not handed out will do too.
FILENAME == ARGV[1] {
    there[$1, $2, $3] = 1
    known[$1] = 1
    next
}
FNR == 1 { look_up(); text = "" }
{ text = text " " $0; place = FILENAME }
END { look_up() }

# the page's text, from front to back
function look_up(    cited, crate, module) {
    gsub(/ +/, " ", text)
    while (match(text, /`[A-Za-z][A-Za-z0-9_]*(\.|::|\/)[^` ]+`/)) {
        cited = substr(text, RSTART + 1, RLENGTH - 2)
        text = substr(text, RSTART + RLENGTH)
        crate = module = cited
        sub(/(\/|::|\.).*/, "", crate)
        sub(/^[a-z0-9_]*\//, "", module)
        if (cited ~ /^[a-z0-9_]+\/W[0-9]+$/) tell("case", crate, module)
        else if (cited ~ /^[a-z0-9_]+\/[A-Z][A-Za-z0-9]*\./) {
            tell("name", crate, module)
            sub(/\..*/, "", module)
            fields(crate, module)
        } else if (cited ~ /^[a-z0-9_]+::/) tell("call", crate, cited)
        else if (cited ~ /^[A-Z][A-Za-z0-9]*\./ && cited !~ /\.md$/) tell("name", "", cited)
    }
}

function fields(crate, module,    words) {
    if (!match(text, /^ \(fields? `[a-z][A-Za-z]*`((,| and) `[a-z][A-Za-z]*`)*/)) return
    words = substr(text, 1, RLENGTH)
    while (match(words, /`[a-zA-Z]+`/)) {
        tell("field", crate, module "." substr(words, RSTART + 1, RLENGTH - 2))
        words = substr(words, RSTART + RLENGTH)
    }
}

function tell(kind, crate, thing,    c, found) {
    if ((crate, kind, thing) in there || anywhere && (crate, "inner", thing) in there) found = 1
    if (anywhere && crate == "") for (c in known) if ((c, kind, thing) in there || wild(c, kind, thing)) found = 1
    if (found) print kind " + " place " " crate " " thing
    else if (crate == "") print kind " - " place " cites `" thing "`, which " (anywhere ? "no crate declares" : "has no crate in front of it")
    else print kind " - " place " cites " kind " `" thing "`, which " (crate in known ? crate " does not declare in public" : "has no such crate: " crate)
}

# a '*' at the end stands for anything
function wild(c, kind, thing,    key, rest) {
    if (thing !~ /\*$/) return 0
    for (key in there) {
        split(key, rest, SUBSEP)
        if (rest[1] == c && rest[2] == kind && index(rest[3], substr(thing, 1, length(thing) - 1)) == 1) return 1
    }
    return 0
}
