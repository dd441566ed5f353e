# Exports of the source, one a line up to the end of their ensures: says of each where its statement or its types are of
# another kind, width or call than its name.
BEGIN {
    root_of[8] = 8; root_of[16] = 8; root_of[32] = 16; root_of[64] = 32
    split("IsRoot Full Normalised Rebuilt Batched", promises)
}

function hold(right, otherwise) { if (!right) print name ": " otherwise }

function kind_of(name) { return name ~ /sqrt|square/ ? "square" : name ~ /cbrt|cube/ ? "cube" : "" }

function promise_of(name) {
    if (name ~ /_batch_/) return "Batched"
    if (name ~ /_rebuild_/) return "Rebuilt"
    if (name ~ /_normalized_/) return "Normalised"
    return name ~ /_rem_/ ? "Full" : "IsRoot"
}

{
    sub(/^.* fn /, "")
    name = substr($0, 1, index($0, "(") - 1)
    at = index($0, "ensures {")
    types = substr($0, 1, at - 1)
    width = match(name, /_u(8|16|32|64)$/) ? substr(name, RSTART + 2) : ""
    split("", says)
    for (i = split(substr($0, at), words, /[^A-Za-z0-9]+/); i > 0; i--) says[words[i]]
    if ("Batched" in says) says["square"] # it speaks of square roots alone

    hold(at > 0, "it has no ensures")
    hold(kind_of(name) != "" && width != "", "its name says no kind, or no width")
    hold(kind_of(name) in says, "it does not promise a " kind_of(name) " root")
    hold(!((kind_of(name) == "cube" ? "square" : "cube") in says), "it promises the other kind of root")
    for (i in promises)
        if (promises[i] == promise_of(name)) hold(promises[i] in says, "it does not promise " promises[i])
        else hold(!(promises[i] in says), "it promises " promises[i])
    for (w in root_of) hold(w == width || !(("u" w) in says), "it promises a root of u" w)
    hold(types ~ ("[(](n|root: u" root_of[width] ", rest): u" width "[)]") || types ~ ("[( ]values: &[[]u" width "[]]"), "it takes no u" width)
    hold(types ~ ("-> (u" root_of[width] "|[A-Z][A-Za-z]*" width ") $") || types ~ (" roots: &mut [[]u" root_of[width] "[]]"), "it answers no root of a u" width)
}
