# For each exported function of archives the deepest stack that it can come to. c/stack gives the input: for each
# archive twice 'archive NAME' and what objdump says of it, its symbols and relocations, then its code with relocations;
# and lines 'passed FUNCTION PLACE', where at its entry the first byte stands behind what its caller passes.
#
# A function is followed from its first instruction along every jump, with the depth of the stack at each: the return
# address, what is pushed, the frame, and what is touched below the stack pointer. A call adds what the called function
# comes to; a jump into another function goes on there, at the same depth. What cannot be followed so is a fault, but
# for three functions of the C library: of them it is taken on trust that they keep to what BELOW allows.

BEGIN {
    WORD = 8
    # By the conventions of the x86-64 a function may use so many bytes below its stack pointer.
    BELOW = 128
    trusted["memcpy"]
    trusted["memmove"]
    trusted["memset"]
}

# ---- what objdump says

function stop(why) {
    print "c/stack: " why | "cat >&2"
    stopped = 1
    exit
}

# Hexadecimal digits, behind a sign and 0x or not; sixteen of them that begin above 7 stand for a negative number.
function hex(text,    minus, negative, value, digit, i) {
    minus = text ~ /^-/
    sub(/^[-+]?(0x)?/, "", text)
    negative = text ~ /^[89a-f]/ && length(text) == 16
    for (i = 1; i <= length(text); i++) {
        digit = index("0123456789abcdef", substr(text, i, 1)) - 1
        value = 16 * value + (negative ? 15 - digit : digit)
    }
    if (negative) value = -value - 1
    return minus ? -value : value + 0
}

/^archive / { archive = substr($0, 9); members = 0; next }
/^passed / { passed[$2] = $3 - WORD; next }
/ file format / {
    if ($NF != "elf64-x86-64") stop(archive " is for another machine")
    object = archive ":" ++members
    next
}
/^RELOCATION RECORDS FOR / { section = $4; gsub(/^\[|\]:$/, "", section); next }
/^Disassembly of section / { section = $4; sub(/:$/, "", section); next }

# A symbol: 0000000000000000 g     F .text	000000000000004d .hidden name
/^[0-9a-f]+ [lgu! ][w ][C ][W ][Ii ][dD ][FfO ] / {
    place = substr($0, 26)
    sub(/\t.*/, "", place)
    if (place ~ /^\*/) next
    place = object SUBSEP place SUBSEP hex($1)
    if (substr($0, 18, 1) == "l") {
        places[object, $NF] = place
        next
    }
    if (substr($0, 22, 1) == "i") unclear[$NF] = "which code it has is chosen when it runs"
    if ($NF in global) unclear[$NF] = "it is defined more than once"
    else if ($(NF - 1) != ".hidden") exported[++exports] = $NF
    global[$NF] = place
    next
}

# A relocation of data: 0000000000000020 R_X86_64_PC32     .text+0x0000000000000010
/^[0-9a-f]+ R_X86_64_/ {
    if (section !~ /^\.(rodata|data\.rel\.ro)/) next
    entryIn[++entries] = object SUBSEP section
    entryAt[entries] = hex($1)
    entryKind[entries] = $2
    entryTo[entries] = $3
    next
}

# Where a function begins: 0000000000000000 <name>:
/^[0-9a-f]+ <.*>:$/ { name = substr($2, 2, length($2) - 3); first = hex($1); next }

# A relocation of the instruction before: 21: R_X86_64_PLT32	name-0x4
/^\t+[0-9a-f]+: R_X86_64_/ {
    kind[count] = $2
    to[count] = $3
    spot[count] = hex(substr($1, 1, length($1) - 1))
    next
}

# An instruction: 10:	lea    (%rcx,%rax,1),%edx
/^ *[0-9a-f]+:\t/ {
    address = hex(substr($1, 1, length($1) - 1))
    text = $0
    sub(/^[^\t]*\t/, "", text)
    sub(/ *(#.*)?$/, "", text)
    while (text ~ /^(notrack|bnd|rep|repn?z|lock|data16|addr32|[c-gs]s|rex(\.[WRXB]+)?) /) sub(/^[^ ]+ +/, "", text)
    if ((object, section, address) in at) stop(archive " has two sections " section " in one object")
    at[object, section, address] = ++count
    begins[count] = address
    within[count] = object SUBSEP section
    belongs[count] = object SUBSEP name
    op[count] = text
    sub(/ .*/, "", op[count])
    args[count] = substr(text, length(op[count]) + 1)
    sub(/^ +/, "", args[count])
    said[count] = sprintf("'%s' at %s+0x%x", op[count] (args[count] ? " " : "") args[count], name, address - first)
}

# ---- places: object, section, address

function shifted(place, by,    part) {
    split(place, part, SUBSEP)
    return part[1] SUBSEP part[2] SUBSEP (part[3] + by)
}

# Where a relocation points, as name, name+0x10 or name-0x10; "" where no archive has the name, or not one for sure.
function pointed(object, text, by) {
    if (match(text, /[-+]0x[0-9a-f]+$/)) {
        by += hex(substr(text, RSTART))
        text = substr(text, 1, RSTART - 1)
    }
    if ((object, text) in places) return shifted(places[object, text], by)
    if (text in global && !(text in unclear)) return shifted(global[text], by)
    return ""
}

# Whether a relocation counts from its own place.
function fromHere(kind) { return kind ~ /PC|PLT/ }

# Where an instruction's relocation points: the machine counts from the next instruction.
function names(i,    after) {
    after = within[i + 1] == within[i] ? begins[i + 1] : spot[i] + 4
    return pointed(substr(within[i], 1, index(within[i], SUBSEP) - 1), to[i], fromHere(kind[i]) ? after - spot[i] : 0)
}

# ---- jumps by a table

# An entry of read-only data belongs to the last place up to it that an instruction names. What a function may jump to
# by a table are the entries of those tables that it names; 0 stands for one that is no instruction.
function readTables(    i, n, place, entry, table, user) {
    for (i = 1; i <= count; i++) if (i in to && op[i] !~ /^(call|j)/) users[names(i)] = users[names(i)] i " "
    for (i = 1; i <= entries; i++) {
        table = entryAt[i]
        while (table >= 0 && !((entryIn[i] SUBSEP table) in users)) table--
        split(entryIn[i], user, SUBSEP)
        place = pointed(user[1], entryTo[i], fromHere(entryKind[i]) ? table - entryAt[i] : 0)
        entry = place in at ? at[place] : 0
        landed[entry]
        for (n = split(users[entryIn[i] SUBSEP table], user, " "); n; n--) {
            targets[belongs[user[n]]] = targets[belongs[user[n]]] entry " "
            holdsTable[belongs[user[n]], written(user[n])]
        }
    }
}

# The 64-bit register that an operand is, or of which it is a part; else '-'.
function register(operand) {
    sub(/^\*?%/, "", operand)
    if (operand ~ /^r[0-9]+[dwb]?$/) { sub(/[dwb]$/, "", operand); return operand }
    if (operand ~ /^[a-d][lh]$/) return "r" substr(operand, 1, 1) "x"
    if (operand ~ /^(si|di|bp|sp)l$/) return "r" substr(operand, 1, 2)
    if (operand ~ /^[re]?([a-d]x|si|di|bp|sp)$/) { sub(/^[re]/, "", operand); return "r" operand }
    return "-"
}

# The register that an instruction writes: its last operand.
function written(i,    n, operand) {
    if (op[i] ~ /^((cmp|test)[bwlq]?|push.*|nop.*)$/) return "-"
    n = split(args[i], operand, ",")
    return register(operand[n])
}

# Whether a jump through a register is by a table of offsets: in one stretch before it, into which nothing jumps, an
# entry is loaded into the register, and one is added into which the function puts a table's place.
function byTable(i,    goal, base, j, operand) {
    goal = register(args[i])
    for (j = i - 1; !((j + 1) in landed) && belongs[j] == belongs[i] && op[j] !~ /^(call|j|loop|ret)/; j--) {
        if (base && written(j) == goal) return op[j] == "movslq" && args[j] ~ ("^(0x0)?\\(%" base ",%[a-z0-9]+,4\\),")
        if (base && written(j) == base) return 0
        if (written(j) != goal) continue
        split(args[j], operand, ",")
        base = register(operand[1])
        if (op[j] != "add" || !((belongs[i], base) in holdsTable)) return 0
    }
    return 0
}

# ---- one instruction

function failed(i, why) {
    if (!fault) fault = why ": " said[i]
    return 0
}

# Whether a call or a jump goes where a register or a place in memory says.
function through(i) { return args[i] ~ /^\*/ && kind[i] !~ /GOTPCREL/ }

# Whether it goes to a function of the C library that is taken on trust.
function toLibrary(i,    text) {
    if (!(i in to) || through(i)) return 0
    text = to[i]
    sub(/[-+]0x[0-9a-f]+$/, "", text)
    return text in trusted && !(text in global)
}

# The instruction that a call or a jump names.
function named(i,    place, text) {
    text = i in to ? to[i] : args[i]
    sub(/ .*|[-+]0x[0-9a-f]+$/, "", text)
    place = i in to ? names(i) : within[i] SUBSEP hex(text)
    if (place == "") return failed(i, text in unclear ? text ": " unclear[text] : "no archive has " text)
    return place in at ? at[place] : failed(i, "no instruction begins where it goes")
}

# The number that an operand has, as $0x10, 0x10(%rsp) or -0x10(%rsp).
function number(text) {
    match(text, /-?0x[0-9a-f]+/)
    return hex(substr(text, RSTART, RLENGTH))
}

# The depth after an instruction that neither calls nor jumps, and that of the frame pointer, 0 where there is none.
function moves(i,    a) {
    a = args[i]
    if (op[i] ~ /^pushf?q?$/) depth += WORD
    else if (op[i] ~ /^popf?q?$/ && a != "%rsp") depth -= WORD
    else if (op[i] == "sub" && a ~ /^\$0x[0-9a-f]+,%rsp$/) depth += number(a)
    else if (op[i] == "add" && a ~ /^\$0x[0-9a-f]+,%rsp$/) depth -= number(a)
    else if (op[i] == "lea" && a ~ /^-?0x[0-9a-f]+\(%rsp\),%rsp$/) depth -= number(a)
    else if (op[i] == "lea" && a ~ /^-?0x[0-9a-f]+\(%rbp\),%rsp$/ && frame) depth = frame - number(a)
    else if (op[i] == "mov" && a == "%rbp,%rsp" && frame) depth = frame
    else if (op[i] ~ /^leaveq?$/ && frame) depth = frame - WORD
    else if (setsOtherwise(i)) failed(i, "where the stack pointer is then is not known")
    if (op[i] == "mov" && a == "%rsp,%rbp") frame = depth
    else if (written(i) == "rbp" || op[i] ~ /^leave/) frame = 0
}

function setsOtherwise(i) {
    if (op[i] ~ /^x/ && args[i] ~ /%[re]?spl?,/) return 1
    return written(i) == "rsp" || op[i] ~ /^(push|popw|leave|enter|l?ret|iret|int|sys|lcall|ljmp|\(bad\))/
}

# Whether an instruction writes over the return address.
function setsReturn(i) {
    if (op[i] ~ /^(cmp|test|push|nop)/ || !match(args[i], /(^|,)(0x[0-9a-f]+)?\(%rsp\)$/)) return 0
    return number(substr(args[i], RSTART)) == depth - WORD
}

# Whether an instruction puts an address on the stack into a register, or adds a register to one: what is touched by it
# is then not in the code.
function escapes(i, pointer,    a) {
    a = args[i]
    if (written(i) == "rsp" || a == "%rsp,%rbp" || op[i] ~ /^pop/) return 0
    if (op[i] != "lea") gsub("\\(%" pointer "\\)", "", a)
    return a ~ ("%" pointer)
}

# How deep an instruction touches the stack below the stack pointer, or by the frame pointer.
function touches(i,    deep) {
    if (escapes(i, "rsp") || frame && escapes(i, "rbp")) return depth + BELOW
    if (match(args[i], /-0x[0-9a-f]+\(%rsp/)) deep = depth - number(substr(args[i], RSTART))
    if (frame && match(args[i], /-0x[0-9a-f]+\(%rbp/)) deep = frame - number(substr(args[i], RSTART))
    return deep + 0
}

# ---- one function

function greater(a, b) { return a > b ? a : b }

function later(todo, i) { if (i) todo[++todo[0]] = i SUBSEP depth SUBSEP frame }

function goOn(todo, i) {
    if (within[i + 1] != within[i]) failed(i, "the code ends behind it")
    else later(todo, i + 1)
}

function called(i, todo,    callee, before, pointer, deepest) {
    if (through(i)) return failed(i, "a call through a register or memory")
    if (toLibrary(i)) {
        goOn(todo, i)
        return depth + WORD + BELOW
    }
    callee = named(i)
    if (!callee) return 0
    if (callee in running) return failed(i, "recursion")
    before = depth
    pointer = frame
    deepest = before + comesTo(callee)
    depth = before
    frame = pointer
    goOn(todo, i)
    return deepest
}

function jumped(i, todo,    n, list, deepest) {
    if (toLibrary(i)) deepest = depth + BELOW
    else if (!through(i)) later(todo, named(i))
    else if (!byTable(i)) failed(i, "a jump through a register or memory, and by no table of offsets")
    else if (index(" " targets[belongs[i]], " 0 ")) failed(i, "a table has an entry that is no instruction")
    else for (n = split(targets[belongs[i]], list, " "); n; n--) later(todo, list[n])
    if (op[i] !~ /^jmp/) goOn(todo, i)
    return greater(depth, deepest)
}

# How deep an instruction comes; what may come after it is added to what is to be done.
function follow(i, todo,    before) {
    if (op[i] ~ /^call/) return called(i, todo)
    if (op[i] ~ /^(j|loop)/) return jumped(i, todo)
    if (op[i] ~ /^(ud2|hlt|int3)$/) return depth
    if (op[i] ~ /^retq?$/ && args[i] == "") return depth == WORD ? depth : failed(i, "it returns from depth " depth)
    if (setsReturn(i)) return failed(i, "it sets where it returns to")
    before = depth
    moves(i)
    goOn(todo, i)
    return greater(before, depth)
}

# The deepest that the function comes to which begins with this instruction, its return address counted.
function comesTo(entry,    todo, seen, part, i, deepest) {
    if (entry in known) return known[entry]
    running[entry]
    depth = WORD
    frame = 0
    later(todo, entry)
    while (todo[0] && !fault) {
        split(todo[todo[0]--], part, SUBSEP)
        i = part[1]
        depth = part[2] + 0
        frame = part[3] + 0
        if (!(i in seen)) {
            seen[i] = part[2] SUBSEP part[3]
            followed[i]
            deepest = greater(deepest, greater(touches(i), follow(i, todo)))
        } else if (seen[i] != part[2] SUBSEP part[3]) failed(i, "it is reached at two depths")
    }
    delete running[entry]
    if (!fault) known[entry] = deepest
    return deepest
}

# ---- the table

function row(name,    bytes) {
    split("", running)
    fault = name in unclear ? unclear[name] : ""
    if (!fault) bytes = comesTo(at[global[name]])
    if (!fault) print name, bytes, (name in passed ? passed[name] " " bytes + passed[name] : "- -")
    else {
        print "c/stack: " name ": " fault | "cat >&2"
        faults++
    }
}

# Where every function was followed, every instruction was, but for those that only fill: else a jump was overlooked.
function overlooked(    i) {
    for (i = 1; i <= count; i++) {
        if (i in followed || op[i] ~ /^(nop|int3|xchg|ud2)/) continue
        print "c/stack: nothing that was followed reaches " said[i] | "cat >&2"
        return 1
    }
    return 0
}

END {
    if (stopped) exit 3
    readTables()
    for (i = 1; i <= count; i++) if (op[i] ~ /^(j|loop)/ && !through(i)) landed[named(i)]
    for (n = 1; n <= exports; n++) if (global[exported[n]] in at) row(exported[n])
    if (!faults) faults = overlooked()
    exit faults > 0
}
