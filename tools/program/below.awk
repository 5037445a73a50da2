# Prints the crate that is named by `-v of=NAME` and all crates below it, a name a line, each after those below it. It
# reads crates.txt, and passes over what the file does not list: libraries of the kit.
function visit(name,   uses, count, at) {
    if (name in seen || !(name in line)) return
    seen[name] = 1
    count = split(line[name], uses)
    for (at = 1; at <= count; at++) visit(uses[at])
    print name
}
{ sub(/#.*/, "") }
/:/ { name = $1; sub(/:.*/, "", name); line[name] = substr($0, index($0, ":") + 1) }
END { visit(of) }
