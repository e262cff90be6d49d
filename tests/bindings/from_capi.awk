# Reads crates/capi/src/*.rt and prints, as one line of C each, every #[repr(C)] struct and every exported function.
# A parameter of a type that is not listed here is printed as it is, so that it cannot be the same as the header's.
BEGIN { c["u32"] = "uint32_t"; c["i32"] = "int32_t"; c["u64"] = "uint64_t"; c["usize"] = "size_t" }

# BurstAnswer -> urd_burst_answer
function snake(name) { sub(/Answer$/, "", name); return "urd_" tolower(name) "_answer" }

# "capture: &[u8]" -> "const uint8_t *capture, size_t capture_length"
function parameter(text,    name, type) {
    name = text; sub(/:.*/, "", name)
    type = text; sub(/^[^:]*: */, "", type)
    if (type == "&[u8]") return "const uint8_t *" name ", size_t " name "_length"
    if (type == "&mut [u8]") return "uint8_t *" name ", size_t " name "_length"
    if (type == "&mut [u64]") return "uint64_t *" name ", size_t " name "_length"
    return (type in c ? c[type] : type) " " name
}

/^#\[repr\(C\)\]/ { exported = 1; next }
/^pub struct / && exported { exported = 0; name = snake($3); line = "typedef struct " name " {"; inside = 1; next }
inside && /^}/ { print line " } " name ";"; inside = 0; next }
inside { field = $0; gsub(/^ *pub |,$/, "", field); split(field, part, /: */); line = line " " (part[2] in c ? c[part[2]] : part[2]) " " part[1] ";"; next }

/^#\[unsafe\(no_mangle\)\]/ { head = ""; reading = 1; next }
reading { sub(/^ */, " "); gsub(/<'a>|'a /, ""); head = head $0 } # how long a part is lent does not cross the border
reading && /->/ {
    reading = 0
    result = head; sub(/.*-> */, "", result); sub(/ .*/, "", result)
    name = head; sub(/.* fn /, "", name); sub(/\(.*/, "", name)
    list = head; sub(/^[^(]*\( */, "", list); sub(/,? *\) *->.*/, "", list)
    n = split(list, part, /, */)
    line = snake(result) " " name "("
    for (i = 1; i <= n; i++) { sub(/^ */, "", part[i]); line = line (i > 1 ? ", " : "") parameter(part[i]) }
    print line ");"
}
