# For docs/reading: finds the definitions in reach of the roots. A definition begins on a line with `abbrev`,
# `unfoldable` or `pub`, and goes on to the next; its references are the words in it that the file defines or
# takes from another by `use`. A struct or an enum of the code that these speak of, or that a public call is
# lent or answers, is listed with those that its members are.

function fail(what) { print what >"/dev/stderr"; bad = 1 }

# crates/X/specs/A.antt of the path of a `use`, "src X" where it leads to a struct or enum of the code, and
# nothing of the toolchain's own libraries or of an enum's variants
function module(path,    crate) {
    if (path !~ /^Rattle\.[a-z0-9_]+\.specs\./ || path ~ /^Rattle\.(std|core)\./) return ""
    crate = path
    sub(/^Rattle\./, "", crate)
    sub(/\..*/, "", crate)
    sub(/^Rattle\.[a-z0-9_]+\.specs\./, "", path)
    if (path ~ /TheVariants/) return ""
    if (path ~ /^declared\./) return "src " crate
    return "crates/" crate "/specs/" path ".antt"
}

# use PATH.{a, b as c}; names of a module that is taken whole, with `as` or without, are not followed
function take(line,    path, names, n, i, name, both) {
    path = line
    sub(/^(ghost )?use /, "", path)
    if (path !~ /^Rattle\..*\.\{/) {
        if (path ~ (kind == "spec" ? "^Rattle\\." : "^Rattle\\..*\\.specs\\.")) whole[FILENAME] = 1
        return
    }
    names = path
    sub(/\.\{.*/, "", path)
    sub(/.*\.\{/, "", names)
    sub(/\}.*/, "", names)
    n = split(names, name, ", ")
    for (i = 1; i <= n; i++) {
        if (split(name[i], both, " as ") == 2) {
            name[i] = both[2]
            true_name[FILENAME, name[i]] = both[1]
        }
        from[FILENAME, name[i]] = module(path)
        uses[FILENAME, module(path)] = 1
    }
}

function refuse_whole(path) {
    if (whole[path]) fail(path ": names of a module that is taken whole are not followed")
}

# the words of a line but for projections, r.x
function words(line,    n) {
    gsub(/\.[a-z][A-Za-z0-9_]*/, " ", line)
    gsub(/[(){};,:=.]/, " ", line)
    n = split(line, word, " +")
    return n
}

# what the definition `at` (or a root) may name
function refer(at, line,    n, i) {
    n = words(line)
    for (i = 1; i <= n; i++) said[at] = said[at] " " word[i]
}

function begin(line,    name) {
    name = line
    sub(/^ */, "", name)
    sub(/^(abbrev|unfoldable) /, "", name)
    sub(/^pub /, "", name)
    sub(/^(record|data) /, "", name)
    sub(/[ :].*/, "", name)
    now = FILENAME SUBSEP name
    file[now] = FILENAME
    call[now] = name
    defined[FILENAME, name] = 1
    items[FILENAME] = items[FILENAME] SUBSEP name
    lines[now] = held
    refer(now, heldText)
    held = 0
    heldText = ""
}

FNR == 1 {
    kind = FILENAME ~ /\.rt$/ ? "code" : FILENAME ~ /\/proofs\// ? "proof" : "spec"
    if (declarations) kind = "declared"
    now = heldText = ""
    held = public = stating = signature = 0
    heading = kind == "spec"
    if (heading) order[++count] = FILENAME
}
heading && !/^-- / { heading = 0 }
heading { head[FILENAME] = head[FILENAME] substr($0, 3) }

# ---- what the structs and enums of the code are made of: the words of their bodies but for variants' names
kind == "declared" && /^pub (struct|enum) .*\{$/ { type = $3; sub(/<.*/, "", type); members[type] = ""; next }
kind == "declared" && /^}/ { type = "" }
kind == "declared" { sub(/\/\/.*/, ""); sub(/^ *[A-Z][A-Za-z0-9]*/, "") }
kind == "declared" && type != "" { members[type] = members[type] " " $0 }
kind == "declared" { next }

/^(ghost )?use / { take($0); next }

# ---- roots: what public functions ensure, and what the named theorems state
kind == "code" && /^(pub )?(extern "C" )?fn / { public = signature = /^pub / }
kind == "code" && /^ *(requires|ensures) / { ensures = /^ *ensures /; signature = 0 }
kind == "code" && /^\{/ { ensures = signature = 0 }
kind == "code" && signature { signatures = signatures " " $0 }
kind == "code" { if (public && ensures) refer(FILENAME SUBSEP "", $0); next }
kind == "proof" { match($0, /^ */); depth = RLENGTH }
kind == "proof" && /^ *pub / { stating = index(" " theorems " ", " " $2 " ") > 0; found[$2] = 1; stated = depth }
kind == "proof" && !/^ *pub / && depth == stated && /^ *[^ -].* =/ { stating = 0 }
kind == "proof" { if (stating) refer(FILENAME SUBSEP "", $0); next }

# ---- definitions
/^ *--/ || /^ *$/ { next }
/^module / { held = 1; heldText = $0; next }
/^(abbrev|unfoldable|pub) / || /^  (abbrev|unfoldable|pub record|pub data) / { begin($0) }
{ lines[now]++; refer(now, $0) }

# ---- the closure, by a list of those to look at
function reach(source, name,    target) {
    target = (source, name) in defined ? source : from[source, name]
    if ((source, name) in true_name) name = true_name[source, name]
    if (target == "" || target SUBSEP name in reached) return
    reached[target SUBSEP name] = 1
    if (target ~ /^src /) {
        if (!(name in members)) fail(source ": no library crate declares " name)
        speak(name)
        return
    }
    todo[++last] = target SUBSEP name
    wanted[target] = 1
}

# a struct or an enum of the code, and those that it is made of
function speak(name) {
    if (name in spoken) return
    spoken[name] = 1
    structs = structs (structs == "" ? "" : ", ") "`" name "`"
    types(members[name])
}

function types(text,    n, i, name) {
    gsub(/[^A-Za-z0-9_]+/, " ", text)
    n = split(text, name, " ")
    for (i = 1; i <= n; i++) if (name[i] in members) speak(name[i])
}

function follow(at, source,    n, i, name) {
    n = split(said[at], name, " ")
    for (i = 1; i <= n; i++) reach(source, name[i])
}

# the definitions of a file in their order, and how many lines they have
function row(path,    n, i, name, list, sum, title) {
    n = split(items[path], name, SUBSEP)
    for (i = 2; i <= n; i++) {
        if (!(path SUBSEP name[i] in reached)) fail(path ": no promise rests on " name[i] ", so it is apart")
        list = list (list == "" ? "" : ", ") "`" name[i] "`"
        sum += lines[path SUBSEP name[i]]
    }
    total += sum
    files++
    title = substr(path, 8, length(path) - 12)
    printf "| [%s](../%s) | %s | %s | %d |\n", title, path, sentence(head[path]), list, sum
}

function sentence(text) {
    sub(/^ /, "", text)
    sub(/\. .*/, "", text)
    sub(/\.$/, "", text)
    gsub(/\|/, "\\|", text)
    return text
}

# a file after those that it takes from
function ready(path,    i) {
    for (i = 1; i <= count; i++)
        if (wanted[order[i]] && !done[order[i]] && order[i] != path && uses[path, order[i]]) return 0
    return 1
}

END {
    n = split(theorems, theorem, " ")
    for (i = 1; i <= n; i++) if (!(theorem[i] in found)) fail("there is no theorem " theorem[i])
    for (i = 1; i < ARGC && ARGV[i] != "declarations=1"; i++) {
        if (ARGV[i] !~ /^crates/ || ARGV[i] ~ /\/specs\//) continue
        if (said[ARGV[i] SUBSEP ""] == "") fail(ARGV[i] ": no statement to start from")
        refuse_whole(ARGV[i])
        follow(ARGV[i] SUBSEP "", ARGV[i])
    }
    for (first = 1; first <= last; first++) follow(todo[first], file[todo[first]])
    types(signatures)
    print "| file | what it says | definitions | lines |"
    print "|---|---|---|---|"
    for (again = 1; again; ) {
        again = 0
        for (i = 1; i <= count && !again; i++)
            if (wanted[order[i]] && !done[order[i]] && ready(order[i])) {
                row(order[i])
                done[order[i]] = again = 1
            }
    }
    for (i = 1; i <= count; i++) {
        apart = head[order[i]] ~ /^ Apart: /
        if (!wanted[order[i]] && !apart) fail(order[i] ": its first line does not say that it stands apart")
        if (wanted[order[i]]) refuse_whole(order[i])
        if (wanted[order[i]] && apart) fail(order[i] ": says that it stands apart, but a promise rests on it")
    }
    title = "the structs and enums of the code that these and the public calls speak of"
    print "| `src/` | " title ", with those of their members | " structs " | |"
    printf "| all | %d files | | %d |\n", files, total
    if (total > most) fail(total " lines are more than " most)
    exit bad
}
