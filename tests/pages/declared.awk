# Reads specs/, proofs/ and src/ of the crates and prints what they declare, a line each:
#   CRATE name Module.name    a public definition or law, at the top of a file or in a `module _`
#   CRATE field Module.name   a public field of a record
#   CRATE promise T           a statement of specs/Promises or specs/Demand3: a type without arguments
#   CRATE proof Module.name T a public law whose whole type is the name T
#   CRATE case W07            the id of a worked case, a comment '-- W07: ..' in specs/
#   CRATE call a::name        what src/ hands out; a is the crate, or the crate and the file's module
#   CRATE call a::T::name     a method of the type T, or of a trait that T has
#   CRATE inner a::name       what src/ does not hand out
# Names in a `where` are not public and are not printed.
FNR == 1 {
    n = split(FILENAME, path, "/")
    crate = path[2]
    module = path[n]
    sub(/\.[a-z]*$/, "", module)
    split("", block) # what stands open, by how far it is indented
}

path[3] == "specs" && /^ *-- W[0-9]+: / { print crate, "case", substr($2, 1, length($2) - 1) }

path[3] != "src" && /[^ ]/ && !/^ *--/ {
    match($0, /^ */)
    under = "top"
    for (i = 0; i <= 40; i++) {
        if (i in block && i < RLENGTH) under = block[i]
        if (i in block && i >= RLENGTH) delete block[i]
    }
    block[RLENGTH] = $1 == "module" && $2 == "_" ? "top" : $1 == "pub" && $2 == "record" ? "record" : "other"
    if ($1 != "pub" && $2 != "pub" || $2 == "mod") next
    name = $2 == "pub" || $2 == "record" || $2 == "data" ? $3 : $2
    if (under == "top") print crate, "name", module "." name
    if (under == "record") print crate, "field", module "." name
    if (under == "top" && path[3] == "proofs" && $3 == ":" && NF == 4) print crate, "proof", module "." name, $4
    if (under == "top" && path[3] == "specs" && (module == "Promises" || module == "Demand3" && $1 == "abbrev") && $4 == ":" && $5 == "Type")
        print crate, "promise", name
}

# the type that an impl is of, or a trait with its methods
path[3] == "src" && /^impl/ {
    type = $0
    of_trait = / for /
    sub(/^impl(<[^>]*>)? /, "", type)
    sub(/^.* for /, "", type)
    sub(/[^A-Za-z0-9_].*/, "", type)
}
path[3] == "src" && /^(pub )?trait / { type = $0; of_trait = 1; sub(/^(pub )?trait /, "", type); sub(/[^A-Za-z0-9_].*/, "", type) }
path[3] == "src" && /^}/ { type = "" }
path[3] == "src" && type != "" && /^    (pub )?fn / {
    name = $0
    kind = $1 == "pub" || of_trait ? "call" : "inner"
    sub(/^ *(pub )?fn /, "", name)
    sub(/[^A-Za-z0-9_].*/, "", name)
    print crate, kind, crate "::" type "::" name
}

path[3] == "src" && /^(pub )?(extern "C" )?(fn|struct|enum|type|const|trait) / {
    kind = $1 == "pub" ? "call" : "inner"
    sub(/^(pub )?(extern "C" )?[a-z]* /, "")
    match($0, /^[A-Za-z0-9_]+/)
    name = substr($0, 1, RLENGTH)
    print crate, kind, crate "::" name
    print crate, kind, crate "::" module "::" name
}
